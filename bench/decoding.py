#!/usr/bin/env python3
"""Times how the code of class files of three sizes a factor of ten apart is decoded.

decode_run reads a file and decodes all of its code; cjvm only reads it. Prints for each kind and size
the bytes, both times, and their difference a byte, each as the least of several runs and net of the
time of a program that reads nothing. Usage: bench/decoding.py (the programs are built by ./cjvm, and
by `rt run` in crates/decode_run).
"""
import os
import struct
import tempfile

from classes import class_file, each_file, method
from program import CJVM, DECODE, least_time, need_programs

RETURN = b"\xb1"


def repeated(code, count):
    """A class with so many methods of this code."""
    names = [b"()V"] + [b"%04x" % i for i in range(count)]
    return class_file(names, methods=[method(6 + i, 5, code) for i in range(count)])


def calls(count, each, size):
    """A class with so many methods of so many calls each, all of one descriptor of so many bytes."""
    texts = [b"()V", b"(L" + b"a" * (size - 5) + b";)V"] + [b"%04x" % i for i in range(count)]
    pair = 5 + len(texts)
    items = [struct.pack(">BHH", 12, 7, 6), struct.pack(">BHH", 10, 2, pair)]
    code = struct.pack(">BH", 184, pair + 1) * each + RETURN
    return class_file(texts, methods=[method(7 + i, 5, code) for i in range(count)], items=items)


def plain(size):
    """Loads, arithmetic and a branch back to the start, again and again."""
    part = b"\x1a\x1b\x60\x3b\x1a\x10\x40\xa4\xff\xf8"
    return part * ((size - 1) // len(part)) + RETURN


def jumps(size):
    """Each instruction jumps to the next."""
    return b"\xa7\x00\x03" * ((size - 1) // 3) + RETURN


def table_switch(size):
    """One switch whose offsets fill the code; each leads to the return behind it."""
    count = (size - 17) // 4
    end = 16 + 4 * count
    to = struct.pack(">i", end - 1)
    return b"\x03\xaa\x00\x00" + to + struct.pack(">ii", 0, count - 1) + to * count + RETURN


def lookup_switch(size):
    count = (size - 13) // 8
    end = 12 + 8 * count
    to = struct.pack(">i", end - 1)
    pairs = b"".join(struct.pack(">i", key) + to for key in range(count))
    return b"\x03\xab\x00\x00" + to + struct.pack(">i", count) + pairs + RETURN


def one(code):
    return repeated(code, 1)


KINDS = (
    ("methods of 41 bytes", lambda count: repeated(plain(41), count), (120, 1200, 12000)),
    ("methods of one byte", lambda count: repeated(RETURN, count), (280, 2800, 28000)),
    ("one method, plain", lambda size: one(plain(size)), (655, 6553, 65535)),
    ("one method, jumps", lambda size: one(jumps(size)), (655, 6553, 65535)),
    ("one tableswitch", lambda size: one(table_switch(size)), (655, 6553, 65535)),
    ("one lookupswitch", lambda size: one(lookup_switch(size)), (655, 6553, 65535)),
    ("one method, calls", lambda size: calls(1, (size - 1) // 3, size), (655, 6553, 65535)),
    ("methods of one call", lambda count: calls(count, 1, 3 * count), (200, 2000, 20000)),
    ("full tableswitches", lambda count: repeated(table_switch(65535), count), (1, 4, 15)),
)


def main():
    need_programs(CJVM, DECODE)
    with tempfile.TemporaryDirectory() as folder:
        path = os.path.join(folder, "A.class")
        empty = (0, 0)
        for name, length in each_file(KINDS, path):
            read = least_time([CJVM, "check", path], (3,))
            both = least_time([DECODE, path], (0,), None)
            if name is None:
                empty = (read, both)
                print(f"an empty file: {read * 1000:.2f} ms, {both * 1000:.2f} ms")
                continue
            read = max(read - empty[0], 0)
            both = max(both - empty[1], 0)
            decode = max(both - read, 0) / length * 1e9
            print(
                f"{name:20} {length:8} bytes: read {read * 1000:6.2f} ms, and decoded "
                f"{both * 1000:6.2f} ms: decoding {decode:6.1f} ns a byte"
            )


main()
