#!/usr/bin/env python3
"""Runs programs that mean harm, each with two gigabytes of memory: status, output, time, memory.

Each is to end by itself, with the status that is given here. Usage: bench/hostile.py (the program is built by ./cjvm).
"""
import os
import resource
import subprocess
import sys
import tempfile
import time

from program import CJVM, TOP, need_programs

MEMORY = 2 << 30
DIMENSIONS = 255

# a name, the statements of `main`, other members, and the status that is due
PROGRAMS = [
    ("text that doubles", 'StringBuffer b = new StringBuffer("ab"); for (;;) { b.append(b.toString()); }', "", 20),
    ("text added to itself", 'String s = "ab"; for (;;) { s = s.concat(s); }', "", 20),
    ("a million objects", "Hostile h = null; for (int i = 0; i < 1000000; i++) { Hostile n = new Hostile(); n.next = h; h = n; }", "Hostile next;", 0),
    ("objects without end", "Hostile h = null; for (;;) { Hostile n = new Hostile(); n.next = h; h = n; }", "Hostile next;", 8),
    ("an array of 2,147,483,647", "System.out.println(new int[2147483647].length);", "", 20),
    ("2 to the 255 elements", f"Object o = new int{'[2]' * DIMENSIONS}; System.out.println(o == null ? 0 : 1);", "", 20),
    ("arrays without end", "int[][] all = new int[1000000][]; for (int i = 0; ; i++) { all[i] = new int[100000]; }", "", 20),
    ("a loop without end", "for (;;) { }", "", 8),
    ("recursion without end", "f(0);", "static int f(int n) { return f(n + 1) + 1; }", 1),
    ("recursion that catches itself", "for (;;) { f(); }", "static void f() { try { f(); } finally { f(); } }", 8),
    ("exceptions thrown by handlers", "f(900);", "static void f(int n) { try { if (n > 0) { f(n - 1); } throw new RuntimeException(); } finally { int[] o = null; o[n] = n; } }", 1),
    ("a million lines", "for (int i = 0; i < 1000000; i++) { System.out.println(i); }", "", 0),
    ("an error in an error", "Worse.x++;", "static class Worse { static int x = f(); static int f() { return f(); } }", 1),
]


def compiled(folder, number, statements, members):
    place = os.path.join(folder, str(number))
    os.makedirs(place)
    source = os.path.join(place, "Hostile.java")
    with open(source, "w", encoding="utf-8") as file:
        file.write(f"class Hostile {{ {members} public static void main(String[] a) {{ {statements} }} }}\n")
    tool = os.path.join(TOP, "tools", "old_classes.py")
    subprocess.run([sys.executable, tool, place, source], check=True, stdout=subprocess.DEVNULL)
    names = sorted(name for name in os.listdir(place) if name.endswith(".class"))
    return [os.path.join(place, name) for name in names]


def limit():
    resource.setrlimit(resource.RLIMIT_AS, (MEMORY, MEMORY))


def main():
    need_programs(CJVM)
    with tempfile.TemporaryDirectory() as folder:
        for number, (name, statements, members, due) in enumerate(PROGRAMS):
            files = compiled(folder, number, statements, members)
            words = [CJVM, "run", "--main", "Hostile", "--steps", "30000000", *files]
            start = time.perf_counter()
            done = subprocess.run(words, capture_output=True, check=False, preexec_fn=limit)
            took = time.perf_counter() - start
            told = done.stderr.decode(errors="replace").strip().replace("\n", "; ")
            mark = "" if done.returncode == due else f"  NOT {due}"
            print(f"{name:30} {done.returncode:3} {took:7.2f} s {len(done.stdout):8} bytes  {told[:60]}{mark}", flush=True)


if __name__ == "__main__":
    main()
