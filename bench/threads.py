#!/usr/bin/env python3
"""Times a step with 1, 8 and 64 threads, with and without locks, and a replay beside its run.

The threads share the same number of rounds, so that all programs of a kind take about as many steps. How many a run takes
is counted in its order. Usage: bench/threads.py (the program is built by ./cjvm).
"""
import os
import subprocess
import sys
import tempfile

from program import CJVM, TOP, least_time, need_programs

# what a round does
WORK = {
    "plain": "sum = sum * 31 + i;",
    "own lock": "synchronized (own) { sum = sum + i; }",
    "one lock": "synchronized (all) { sum = sum + i; }",
}
ROUNDS = 192_000
SOURCE = """public class Bench extends Thread {{
    static final Object all = new Object();
    final Object own = new Object();
    int sum;
    public void run() {{
        int sum = 0;
        for (int i = 0; i < {rounds}; i++) {{ {work} }}
        this.sum = sum;
    }}
    public static void main(String[] args) throws InterruptedException {{
        Bench[] threads = new Bench[{count}];
        for (int i = 0; i < threads.length; i++) {{ threads[i] = new Bench(); }}
        for (int i = 1; i < threads.length; i++) {{ threads[i].start(); }}
        threads[0].run();
        for (int i = 1; i < threads.length; i++) {{ threads[i].join(); }}
        System.out.println(threads[0].sum);
    }}
}}
"""


def compiled(folder, kind, count):
    """The class file of a program with so many threads, in a folder of its own."""
    place = os.path.join(folder, f"{kind}-{count}")
    os.makedirs(place)
    source = os.path.join(place, "Bench.java")
    with open(source, "w", encoding="utf-8") as file:
        file.write(SOURCE.format(rounds=ROUNDS // count, work=WORK[kind], count=count))
    tool = os.path.join(TOP, "tools", "old_classes.py")
    subprocess.run([sys.executable, tool, place, source], check=True, stdout=subprocess.DEVNULL)
    return os.path.join(place, "Bench.class")


def order_of(program, path):
    """Writes the order of a run to a file, and tells how many steps it has."""
    words = [CJVM, "run", "--steps", "50000000", "--show", "order", program]
    with open(path, "wb") as file:
        subprocess.run(words, check=True, stdout=subprocess.DEVNULL, stderr=file)
    with open(path, "rb") as file:
        return sum(1 for _ in file) - 2


def main():
    need_programs(CJVM)
    print("kind      threads    steps  ns a step of run, of replay")
    with tempfile.TemporaryDirectory() as folder:
        for kind in WORK:
            for count in (1, 8, 64):
                program = compiled(folder, kind, count)
                order = os.path.join(folder, "order")
                steps = order_of(program, order)
                run = least_time([CJVM, "run", "--steps", "50000000", program], (0,), None)
                replay = least_time([CJVM, "replay", order, program], (0,), None)
                print(f"{kind:9} {count:7} {steps:8} {run / steps * 1e9:8.0f} {replay / steps * 1e9:8.0f}", flush=True)


if __name__ == "__main__":
    main()
