#!/usr/bin/env python3
"""Times how the built program verifies: ordinary methods, and those that mean harm.

Each size of a kind is about a tenth of the next. Prints the time of `cjvm check` of the file, and the time
a byte, net of the time of one small class, as the least of several runs.
Usage: bench/verifying.py (the program is built by ./cjvm).
"""
import os
import random
import shutil
import struct
import tempfile

from linked import Pool, class_file, method
from program import CJVM, TOP, least_time, need_programs

LIMIT = 65535
EDGES = os.path.join(TOP, "crates", "cjvm_edges_run", "data")


def in_file(make, count):
    """A class of so many methods of this code, given by its code, stack, locals and handlers."""
    pool = Pool()
    methods = [method(pool, b"m%d" % i, b"()V", *make(pool)) for i in range(count)]
    return class_file(pool, b"A", methods)


def branch(opcode, offset):
    return struct.pack(">Bh", opcode, offset)


def loop_code(pool):
    """A loop of some sums with a call in it, as compilers write it."""
    call = pool.member(10, b"A", b"m0", b"()V")
    body = b"\x1b\x1a\x60\x3c" * 4 + struct.pack(">BH", 184, call)
    turn = b"\x84\x00\x01\x1a\x10\x64"
    back = branch(0xA1, -len(body + turn))
    return b"\x03\x3b\x03\x3c" + body + turn + back + b"\xb1", 2, 2, ()


def straight(length, locals_count=2):
    """Sums without a jump, in one method."""

    def make(pool):
        code = b"\x03\x3b" + b"\x1a\x04\x60\x3b" * ((length - 3) // 4) + b"\xb1"
        return code, 2, locals_count, ()

    return make


def joins(length, locals_count):
    """Each second instruction is one at which a jump and what goes on meet."""

    def make(pool):
        step = b"\x1a" + branch(0x99, 3)
        code = b"\x03\x3b" + step * ((length - 3) // 4) + b"\xb1"
        return code, 2, locals_count, ()

    return make


def back_jumps(length, locals_count):
    """Each second instruction jumps back to the first, at which all that is assigned on the way meets."""

    def make(pool):
        code = b"\x03\x3b"
        local = 1
        while len(code) + 12 < min(length, 32760):
            local = local % (locals_count - 1) + 1
            code += b"\x1a" + struct.pack(">BB", 54, local)
            code += b"\x1a" + branch(0x99, 2 - (len(code) + 1))
        return code + b"\xb1", 2, locals_count, ()

    return make


def handlers(length, count):
    """So many handlers over one range."""

    def make(pool):
        body = b"\x03\x3b" + b"\x1a\x04\x60\x3b" * ((length - 8) // 4)
        catch = len(body) + 1
        table = [(0, len(body), catch, 0)] * count
        return body + b"\xb1" + b"\x57\xb1", 2, 2, table

    return make


def bare(max_locals):
    """One instruction, whatever room there is for locals."""

    def make(pool):
        return b"\xb1", 0, max_locals, ()

    return make


def spread_handlers(count, order):
    """So many handlers, each over an instruction of its own, in an order of the table; the code ends behind."""

    def make(pool):
        table = [(at, at + 1, count, 0) for at in range(count)]
        order(table)
        return b"\x00" * (count - 1) + b"\xb1" + b"\x57\xb1", 1, 1, table

    return make


def nested_handlers(count):
    """So many handlers, each over all that the next one covers and an instruction more at both ends."""

    def make(pool):
        table = [(at, 2 * count - at, 2 * count + 1, 0) for at in range(count)]
        return b"\x00" * (2 * count) + b"\xb1" + b"\x57\xb1", 1, 1, table

    return make


def deep_joins(depth, count):
    """So many operands, above which jumps and what goes on meet so often."""

    def make(pool):
        step = b"\x1a" + branch(0x99, 3)
        return b"\x03\x3b" + b"\x03" * depth + step * count + b"\xb1", depth + 1, 1, ()

    return make


def deep_arrays(count):
    """Loops, to whose head arrays of ints of 255 dimensions down to one come back, where they meet one after the other."""
    pool = Pool()
    code = b""
    for local in range(count):
        code += b"\x01" + struct.pack(">BB", 58, local)
        head = len(code)
        for dims in range(255, 0, -1):
            code += b"\x03" + branch(0x99, 12) + b"\x01" + struct.pack(">BH", 192, pool.named(7, b"[" * dims + b"I"))
            code += struct.pack(">BB", 58, local)
            code += branch(0xA7, head - len(code))
    return [class_file(pool, b"A", [method(pool, b"m", b"()V", code + b"\xb1", 1, count)])]


def wide_stores(length, stores):
    """So many locals far apart that are written, and joins behind them that each have all of these."""

    def make(pool):
        code = b"".join(b"\x03" + struct.pack(">BBH", 196, 54, LIMIT // stores * at) for at in range(stores))
        step = b"\x1a" + branch(0x99, 3)
        code += step * ((length - 3 - len(code)) // 4)
        return code + b"\xb1", 2, LIMIT, ()

    return make


def deep_stack(length):
    """A stack that grows to the end."""

    def make(pool):
        return b"\x03" * (length - 1) + b"\xb1", LIMIT, 1, ()

    return make


def unreached(count):
    """Methods of calls with 255 arguments, none of which is reached."""
    pool = Pool()
    desc = b"(" + b"LA;" * 255 + b")V"
    call = struct.pack(">BH", 184, pool.member(10, b"A", b"all", desc))
    code = b"\xb1" + call * ((LIMIT - 1) // 3)
    methods = [method(pool, b"m%d" % i, b"()V", code, 0, 0) for i in range(count)]
    methods.append(method(pool, b"all", desc, b"\xb1", 0, 255))
    return [class_file(pool, b"A", methods)]


def chain_files(depth):
    """Classes one below the other, of which objects of every two meet."""
    files = []
    for number in range(depth):
        pool = Pool()
        above = b"C%d" % (number - 1) if number else b"java/lang/Object"
        files.append(class_file(pool, b"C%d" % number, [], above))
    pool = Pool()
    code = b"\x01\x4b"
    for number in range(depth):
        target = pool.named(7, b"C%d" % number)
        code += b"\x03" + branch(0x99, 8) + b"\x01" + struct.pack(">BH", 192, target) + b"\x4b"
    files.append(class_file(pool, b"M", [method(pool, b"m", b"()V", code + b"\xb1", 2, 1)]))
    return files


def in_order(table):
    """Leaves a table as it is."""


def shuffled(table):
    """Puts a table into an order that is the same in each run."""
    random.Random(len(table)).shuffle(table)


KINDS = (
    ("ordinary methods", [lambda n=n: [in_file(loop_code, n)] for n in (70, 700, 7000)]),
    ("one method of sums", [lambda n=n: [in_file(straight(n), 1)] for n in (655, 6553, LIMIT)]),
    ("the same, 255 locals", [lambda n=n: [in_file(straight(n, 255), 1)] for n in (655, 6553, LIMIT)]),
    ("the same, 65,535 locals", [lambda n=n: [in_file(straight(n, LIMIT), 1)] for n in (655, 6553, LIMIT)]),
    ("joins, 2 locals", [lambda n=n: [in_file(joins(n, 2), 1)] for n in (655, 6553, LIMIT)]),
    ("joins, 255 locals", [lambda n=n: [in_file(joins(n, 255), 1)] for n in (655, 6553, LIMIT)]),
    ("joins, 65,535 locals", [lambda n=n: [in_file(joins(n, LIMIT), 1)] for n in (655, 6553, LIMIT)]),
    ("stores in 1,000 of 65,535 locals, joins", [lambda n=n: [in_file(wide_stores(n, 1000), 1)] for n in (6553, LIMIT)]),
    ("stores in 10,000 of 65,535 locals", [lambda: [in_file(wide_stores(LIMIT, 10000), 1)]]),
    ("jumps back, 255 locals", [lambda n=n: [in_file(back_jumps(n, 255), 1)] for n in (655, 6553, LIMIT)]),
    ("1,000 handlers", [lambda n=n: [in_file(handlers(n, 1000), 1)] for n in (655, 6553, LIMIT)]),
    ("5,000 handlers", [lambda n=n: [in_file(handlers(n, 5000), 1)] for n in (655, 6553)]),
    ("28,000 methods of one byte, 0 locals", [lambda n=n: [in_file(bare(0), n)] for n in (2800, 28000)]),
    ("the same, 65,535 locals", [lambda n=n: [in_file(bare(LIMIT), n)] for n in (2800, 28000)]),
    ("handlers, each over one instruction", [lambda n=n: [in_file(spread_handlers(n, in_order), 1)] for n in (655, 6553, 65533)]),
    ("the same, in any order", [lambda n=n: [in_file(spread_handlers(n, shuffled), 1)] for n in (655, 6553, 65533)]),
    ("handlers, one in the other", [lambda n=n: [in_file(nested_handlers(n), 1)] for n in (100, 1000, 5000)]),
    ("joins above a stack of 30,000", [lambda n=n: [in_file(deep_joins(30000, n), 1)] for n in (80, 800, 8000)]),
    ("joins of arrays of up to 255 dimensions", [lambda n=n: deep_arrays(n) for n in (1, 10)]),
    ("a stack that grows to the end", [lambda n=n: [in_file(deep_stack(n), 1)] for n in (655, 6553, LIMIT)]),
    ("15 methods of joins, 2 locals", [lambda: [in_file(joins(LIMIT, 2), 15)]]),
    ("15 methods of joins, 255 locals", [lambda: [in_file(joins(LIMIT, 255), 15)]]),
    ("calls of 255 arguments, never reached", [lambda n=n: unreached(n) for n in (1, 15)]),
    ("a chain of classes", [lambda n=n: chain_files(n) for n in (10, 100, 1000)]),
)


def written(folder, files):
    paths = []
    for number, file in enumerate(files):
        paths.append(os.path.join(folder, f"{number}.class"))
        with open(paths[-1], "wb") as out:
            out.write(file)
    return paths


def stored_classes():
    """The class files of javac's that are stored as a run."""
    return [os.path.join(root, name) for root, _, names in os.walk(EDGES) for name in names if name.endswith(".class")]


def print_beside_javap(name, paths, options=()):
    """The time of a check of these files, and that of `javap -c` of them."""
    took = least_time([CJVM, "check", *options, *paths], (0,), None)
    listed = least_time(["javap", "-c", "-p", *paths], (0,), None)
    print(f"{name:40} check {took * 1000:9.2f} ms, javap -c {listed * 1000:9.2f} ms")


def main():
    need_programs(CJVM)
    with tempfile.TemporaryDirectory() as folder:
        small = least_time([CJVM, "check", *written(folder, [in_file(straight(7), 1)])], (0,), None)
        print(f"one small class: {small * 1000:.2f} ms")
        for name, sizes in KINDS:
            for make in sizes:
                files = make()
                size = sum(map(len, files))
                took = least_time([CJVM, "check", *written(folder, files)], (0,), None)
                net = max(took - small, 0) / size * 1e9
                print(f"{name:40} {size:8} bytes: {took * 1000:9.2f} ms, {net:9.1f} ns a byte")
        if shutil.which("javap"):
            print_beside_javap("1,000 ordinary methods", written(folder, [in_file(loop_code, 1000)]))
            print_beside_javap("53 classes of javac's", sorted(stored_classes()), ("--main", "Edges"))


if __name__ == "__main__":
    main()
