#!/usr/bin/env python3
"""Times how the built program reads class files of three sizes a factor of ten apart.

The files are class files without a `main`, so `check` reads them whole and refuses them then. Prints for
each kind and size the bytes, and the time a byte, net of the time of an empty program, as the least of
several runs. Usage: bench/reading.py (the program is built by ./cjvm).
"""
import os
import struct
import tempfile

from classes import class_file, each_file, method
from program import CJVM, least_time, need_programs


def ordinary(count):
    """Methods of 40 bytes of code, with names as compilers' users give them."""
    names = [b"()V"] + [b"method%d" % i for i in range(count)]
    return class_file(names, methods=[method(6 + i, 5, bytes(39) + b"\xb1") for i in range(count)])


def texts(count):
    return class_file([b"%05x" % i for i in range(count)])


def fields(count):
    names = [b"%04x" % i for i in range(count)]
    return class_file(names, fields=[struct.pack(">HHHH", 1, 5 + i, 4, 0) for i in range(count)])


def short_methods(count):
    names = [b"()V"] + [b"%04x" % i for i in range(count)]
    return class_file(names, methods=[method(6 + i, 5, b"\xb1") for i in range(count)])


def long_code(size):
    return class_file([b"()V", b"m"], methods=[method(6, 5, bytes(size - 1) + b"\xb1")])


KINDS = (
    ("methods of 40 bytes", ordinary, (120, 1200, 12000)),
    ("a pool of short texts", texts, (650, 6500, 65000)),
    ("fields of distinct names", fields, (600, 6000, 60000)),
    ("methods of one byte", short_methods, (280, 2800, 28000)),
    ("one method's code", long_code, (655, 6553, 65535)),
)


def main():
    need_programs(CJVM)
    with tempfile.TemporaryDirectory() as folder:
        path = os.path.join(folder, "A.class")
        empty = 0
        for name, length in each_file(KINDS, path):
            took = least_time([CJVM, "check", path], (3,))
            if name is None:
                empty = took
                print(f"an empty file: {empty * 1000:.2f} ms")
                continue
            net = max(took - empty, 0) / length * 1e9
            print(f"{name:25} {length:8} bytes: {took * 1000:7.2f} ms, {net:6.1f} ns a byte")


main()
