"""How long programs run: the time of a step as steps, objects and classes grow, beside `java -Xint`.

Each program does one kind of work in a loop of so many rounds; the time of the same program with no rounds is
taken off. `java` runs the same class files with `-Xint` ten or a hundred times as many rounds, since its start takes
longer than these loops."""
import functools
import os
import subprocess
import sys
import tempfile
import time

from program import CJVM, TOP, least_time, need_programs

# what one round does, and about how many steps it takes, the loop's own four with them
WORK = {
    "loop": ("", "sum = sum * 31 + i;", 10),
    "field": ("Bench kept = new Bench();", "kept.field = kept.field + i;", 11),
    "array": ("int[] kept = new int[1024];", "kept[i & 1023] = kept[i & 1023] + i;", 16),
    "call": ("", "sum = add(sum, i);", 12),
    "new": ("Bench kept = null;", "kept = new Bench();", 10),
}
SOURCE = """public class Bench {{
    int field;
    Bench next;
    static int add(int a, int b) {{ return a + b; }}
    public static void main(String[] args) {{
        int sum = 0;
        Bench chain = null;
        for (int i = 0; i < {objects}; i++) {{ Bench b = new Bench(); b.next = chain; chain = b; }}
        {before}
        for (int i = 0; i < {rounds}; i++) {{ {work} }}
        System.out.println(sum);
    }}
}}
"""


@functools.lru_cache(maxsize=None)
def compiled(folder, kind, rounds, objects=0, classes=0):
    """The class files of a program, in a folder of their own."""
    before, work, _ = WORK[kind]
    place = os.path.join(folder, f"{kind}-{rounds}-{objects}-{classes}")
    os.makedirs(place)
    sources = [os.path.join(place, "Bench.java")]
    with open(sources[0], "w", encoding="utf-8") as file:
        file.write(SOURCE.format(objects=objects, rounds=rounds, before=before, work=work))
    for number in range(classes):
        sources.append(os.path.join(place, f"C{number}.java"))
        with open(sources[-1], "w", encoding="utf-8") as file:
            file.write(f"class C{number} {{ int f{number}; int m{number}() {{ return f{number}; }} }}\n")
    tool = os.path.join(TOP, "tools", "old_classes.py")
    subprocess.run([sys.executable, tool, place, *sources], check=True, stdout=subprocess.DEVNULL)
    names = sorted(name for name in os.listdir(place) if name.endswith(".class"))
    return place, [os.path.join(place, name) for name in names]


def seconds(files):
    return least_time([CJVM, "run", "--steps", "50000000", "--main", "Bench", *files], (0,), None)


def per_step(folder, kind, rounds, objects=0, classes=0):
    """The time of one step of the loop, in nanoseconds."""
    idle = seconds(compiled(folder, kind, 0, objects, classes)[1])
    busy = seconds(compiled(folder, kind, rounds, objects, classes)[1])
    return (busy - idle) / (rounds * WORK[kind][2]) * 1e9


def java_per_step(folder, kind, rounds):
    def run(count):
        place, _ = compiled(folder, kind, count)
        best = None
        for _ in range(5):
            start = time.perf_counter()
            subprocess.run(["java", "-Xint", "-Xshare:auto", "-cp", place, "Bench"], check=True, stdout=subprocess.DEVNULL)
            took = time.perf_counter() - start
            best = took if best is None else min(best, took)
        return best

    return (run(rounds) - run(1)) / (rounds * WORK[kind][2]) * 1e9


def main():
    need_programs(CJVM)
    with tempfile.TemporaryDirectory() as folder:
        print("kind   rounds  ns a step")
        for kind in WORK:
            for rounds in (3_000, 30_000, 300_000):
                print(f"{kind:6} {rounds:7} {per_step(folder, kind, rounds):9.0f}", flush=True)
        for objects in (100, 10_000, 200_000):
            print(f"field, with {objects} objects {per_step(folder, 'field', 100_000, objects):9.0f}", flush=True)
        for classes in (10, 100, 1_000):
            print(f"field, with {classes} classes {per_step(folder, 'field', 99_999, 0, classes):9.0f}", flush=True)
        for kind in WORK:
            print(f"{kind:6} java -Xint {java_per_step(folder, kind, 30_000_000):9.1f}", flush=True)


if __name__ == "__main__":
    main()
