"""The built programs, and how long a run of one takes."""
import os
import subprocess
import sys
import time

TOP = os.path.dirname(os.path.dirname(os.path.abspath(__file__)))
# so many runs of a program are timed, as long as they take less than so many seconds together
RUNS = 7
PATIENCE = 5


def program(name):
    return os.path.join(TOP, "crates", name, "out", name)


CJVM = program("cjvm_run")
DECODE = program("decode_run")
A_CLASS = os.path.join(TOP, "crates", "cjvm_run", "data", "A.class")


def need_programs(*programs):
    for path in programs:
        if not os.path.exists(path):
            sys.exit(f"build {os.path.basename(path)} first: rt run in its crate's folder")


def least_time(words, statuses, output=b""):
    """The least time, in seconds, of some runs of these words, each of which must end with one of the statuses.

    An output of None is any output."""
    best, spent = None, 0
    for _ in range(RUNS):
        start = time.perf_counter()
        done = subprocess.run(words, capture_output=True, check=False)
        took = time.perf_counter() - start
        if done.returncode not in statuses or output not in (None, done.stdout):
            sys.exit(f"status {done.returncode}, output {done.stdout!r}, error {done.stderr!r}")
        best = took if best is None else min(best, took)
        spent += took
        if spent > PATIENCE:
            break
    return best


# Runs its words and prints the most memory that they have at once. A process has at first what its parent has, so that a
# small one stands between.
MEASURE = """
import resource, subprocess, sys
subprocess.run(sys.argv[1:], stdout=subprocess.DEVNULL, stderr=subprocess.DEVNULL)
print(resource.getrusage(resource.RUSAGE_CHILDREN).ru_maxrss)
"""


def most_memory(words):
    """The most memory, in megabytes, that a run of these words has at once; none is told as less than about ten."""
    done = subprocess.run([sys.executable, "-S", "-c", MEASURE, *words], capture_output=True, check=True)
    return int(done.stdout) / 1024
