#!/usr/bin/env python3
"""Times how the built program links 10, 100 and 1,000 classes: a flat set, a chain, a diamond of interfaces.

Each class has methods with code that name members of other classes. The programs are checked, which verifies
them too; each is accepted. Prints the time a class, net of the time of one small class, as the least of several
runs, and the most memory that one run has. Behind them come nine megabytes of ordinary
classes, and hostile programs, of files that make a rule compare or read much again and again; of these it prints
the time a megabyte. Usage: bench/linking.py (the program is built by ./cjvm).
"""
import math
import os
import struct
import tempfile

from linked import ABSTRACT, INTERFACE, MAIN, OBJECT, PUBLIC, STATIC, SUPER, Pool, method
from program import CJVM, least_time, most_memory, need_programs

COUNTS = (10, 100, 1000)
USES = 20
METHOD_LIMIT = 65000
ALIKE = 45000
LONG_NAME = b"L" * 65000
LONG_DESC = b"L" + LONG_NAME + b";"
SHORT_NAME = b"p/Target"
ARGUMENT = b"A" * 250
MANY_LONG = b"(" + (b"L" + ARGUMENT + b";") * 255 + b")V"


def declared(pool, flags, name, desc):
    """A method without code."""
    return struct.pack(">HHHH", flags, pool.text(name), pool.text(desc), 0)


def main_method(pool):
    return method(pool, b"main", MAIN, b"\xb1")


def class_file(name, above, interfaces, flags, other):
    """A class with a field and a method, whose code names those of another class."""
    pool = Pool()
    this, over = pool.named(7, name), pool.named(7, above)
    listed = [pool.named(7, word) for word in interfaces]
    fields, methods = [], []
    if flags & INTERFACE:
        methods.append(declared(pool, PUBLIC | ABSTRACT, b"m", b"()V"))
    else:
        fields.append(struct.pack(">HHHH", PUBLIC | STATIC, pool.text(b"f"), pool.text(b"I"), 0))
        field = pool.member(9, other, b"f", b"I")
        call = pool.member(10, other, b"m", b"()V")
        uses = struct.pack(">BHBBH", 178, field, 87, 184, call) * USES + b"\xb1"
        methods.append(method(pool, b"m", b"()V", uses))
        methods.append(main_method(pool))
    return joined(pool, flags, this, over, listed, fields, methods)


def joined(pool, flags, this, over, listed, fields, methods):
    """The file of a class whose items are all in the pool."""
    parts = [b"\xca\xfe\xba\xbe\x00\x00\x00\x2e", struct.pack(">H", len(pool.items) + 1), *pool.items]
    parts.append(struct.pack(">HHHH", flags, this, over, len(listed)))
    parts.append(struct.pack(f">{len(listed)}H", *listed))
    for members in (fields, methods):
        parts.extend([struct.pack(">H", len(members)), *members])
    parts.append(b"\x00\x00")
    return b"".join(parts)


def name_of(number):
    return b"p/C%d" % number


def plain(number, above, interfaces, count):
    other = name_of((number + 1) % count)
    return class_file(name_of(number), above, interfaces, PUBLIC | SUPER, other)


def flat(count):
    return [plain(i, OBJECT, [], count) for i in range(count)]


def chain(count):
    above = [OBJECT] + [name_of(i) for i in range(count)]
    return [plain(i, above[i], [], count) for i in range(count)]


def diamond(count):
    """One class over levels of two interfaces, each of which extends both of the level above."""
    files, listed = [], []
    for number in range(count - 1):
        extended = [b"p/I%d" % k for k in (number - number % 2 - 2, number - number % 2 - 1) if k >= 0]
        name = b"p/I%d" % number
        files.append(class_file(name, OBJECT, extended, PUBLIC | INTERFACE | ABSTRACT, b""))
        listed = [name]
    return [class_file(b"p/C0", OBJECT, listed, PUBLIC | SUPER, b"p/C0")] + files


def ordinary(number, count):
    """A class of a hundred methods, each of which calls eight of another class."""
    pool, name, other = Pool(), name_of(number), name_of((number + 1) % count)
    this, over = pool.named(7, name), pool.named(7, OBJECT)
    field = struct.pack(">HHHH", PUBLIC | STATIC, pool.text(b"f"), pool.text(b"I"), 0)
    methods = [main_method(pool)]
    for k in range(100):
        code = b""
        for called in range(k, k + 8):
            item = pool.member(10, other, b"m%d" % (called % 100), b"()V")
            code += struct.pack(">BHBBH", 178, pool.member(9, other, b"f", b"I"), 87, 184, item)
        methods.append(method(pool, b"m%d" % k, b"()V", code + b"\xb1"))
    return joined(pool, PUBLIC | SUPER, this, over, [], [field], methods)


# Hostile programs.


def short_descs(count):
    """So many descriptors, each of few letters."""
    descs = []
    for number in range(count):
        args = b""
        while number > 0:
            args, number = args + b"IJBCSZ"[number % 6 : number % 6 + 1], number // 6
        descs.append(b"(" + args + b"I)V")
    return descs


def signatures(count):
    """So many names and descriptors, of few texts."""
    side = math.isqrt(count - 1) + 1
    descs = short_descs(side)
    return [(b"m%d" % (k // side), descs[k % side]) for k in range(count)]


def holder(name, above, members=(), uses=None, flags=PUBLIC | ABSTRACT):
    """A class that declares those abstract methods, and one with the code that `uses` gives."""
    pool = Pool()
    methods = [declared(pool, flags, called, desc) for called, desc in members]
    methods.append(main_method(pool))
    if uses is not None:
        methods.append(method(pool, b"uses", b"()V", uses(pool)))
    this, over = pool.named(7, name), pool.named(7, above)
    return joined(pool, PUBLIC | SUPER | ABSTRACT, this, over, [], [], methods)


def overridden(count, methods, flags=PUBLIC | ABSTRACT, package=b"p/"):
    """A chain of classes, each of which declares the same methods."""
    above = [OBJECT] + [package + b"C%d" % k for k in range(count)]
    members = signatures(methods)
    return [holder(above[k + 1], above[k], members, None, flags) for k in range(count)]


def long_named(uses):
    """A class whose code uses a class of a long name in each instruction."""
    return [holder(b"p/C0", OBJECT, (), uses), target(LONG_NAME), holder(ARGUMENT, OBJECT)]


def target(name):
    """A class with two static fields, which can be made."""
    pool = Pool()
    fields = []
    for called, desc in ((b"f", b"I"), (b"g", LONG_DESC)):
        fields.append(struct.pack(">HHHH", PUBLIC | STATIC, pool.text(called), pool.text(desc), 0))
    methods = [main_method(pool), method(pool, b"all", MANY_LONG, b"\xb1", 2, 255)]
    this, over = pool.named(7, name), pool.named(7, OBJECT)
    return joined(pool, PUBLIC | SUPER, this, over, [], fields, methods)


def repeated(use):
    """A use again and again, to the end of the longest code."""
    return use * (65000 // len(use)) + b"\xb1"


def casts(pool):
    return repeated(struct.pack(">BBHB", 1, 192, pool.named(7, LONG_NAME), 87))


def array_casts(pool):
    return repeated(struct.pack(">BBHB", 1, 192, pool.named(7, b"[" + LONG_DESC), 87))


def calls(pool):
    return repeated(struct.pack(">BBH", 1, 184, pool.member(10, LONG_NAME, b"main", MAIN)))


def reads(pool):
    return repeated(struct.pack(">BHB", 178, pool.member(9, LONG_NAME, b"f", b"I"), 87))


def long_reads(pool):
    return repeated(struct.pack(">BHB", 178, pool.member(9, LONG_NAME, b"g", LONG_DESC), 87))


def news(pool):
    return repeated(struct.pack(">BHB", 187, pool.named(7, LONG_NAME), 87))


def many_called(pool):
    """Calls with 255 arguments of a long name, which are never reached."""
    return b"\xb1" + repeated(struct.pack(">BH", 184, pool.member(10, LONG_NAME, b"all", MANY_LONG)))


def interfaces(count):
    """A chain of interfaces, each of which extends the one before it."""
    above = [[]] + [[b"p/I%d" % k] for k in range(count)]
    flags = PUBLIC | INTERFACE | ABSTRACT
    return [class_file(b"p/I%d" % k, OBJECT, above[k], flags, b"") for k in range(count)]


def listing(number, above, listed):
    pool = Pool()
    this, over = pool.named(7, b"p/C%d" % number), pool.named(7, above)
    places = [pool.named(7, name) for name in listed]
    return joined(pool, PUBLIC | SUPER, this, over, places, [], [main_method(pool)])


def unused_items(classes, listed, count):
    """A class with items, which no code uses, of methods that the last class of a chain doesn't have.

    Each class of the chain lists the lowest of a chain of interfaces, and another class has the methods."""
    members = signatures(count)
    pool = Pool()
    this, over = pool.named(7, b"p/User"), pool.named(7, OBJECT)
    for name, desc in members:
        pool.member(10, b"p/C%d" % (classes - 1), name, desc)
    user = joined(pool, PUBLIC | SUPER, this, over, [], [], [main_method(pool)])
    above = [OBJECT] + [b"p/C%d" % k for k in range(classes)]
    lowest = [b"p/I%d" % (listed - 1)] if listed else []
    chained = [listing(k, above[k], lowest) for k in range(classes)]
    return [user, holder(b"p/Else", OBJECT, members), *chained, *interfaces(listed)]


def array_types(count):
    """A class whose code casts to array classes of 255 dimensions, each of another class."""
    names = [b"p/E%d" % k for k in range(count)]

    def uses(pool):
        types = [pool.named(7, b"[" * 255 + b"L" + name + b";") for name in names]
        return b"".join(struct.pack(">BBHB", 1, 192, item, 87) for item in types) + b"\xb1"

    return [holder(b"p/C0", OBJECT, (), uses), *(holder(name, OBJECT) for name in names)]


def alike(members):
    """A class of those abstract methods, beside the class of a long name."""
    return [holder(b"p/C0", OBJECT, members), target(LONG_NAME), holder(ARGUMENT, OBJECT)]


def of_one_name():
    return alike([(LONG_NAME, desc) for desc in short_descs(ALIKE)])


def of_one_desc():
    return alike([(b"m%d" % k, b"(" + LONG_DESC + b")V") for k in range(ALIKE)])


def fields_of_one_type():
    """A class of many fields, all of the class of a long name."""
    pool = Pool()
    desc = pool.text(LONG_DESC)
    fields = [struct.pack(">HHHH", PUBLIC, pool.text(b"f%d" % k), desc, 0) for k in range(ALIKE)]
    this, over = pool.named(7, b"p/C0"), pool.named(7, OBJECT)
    methods = [main_method(pool)]
    return [joined(pool, PUBLIC | SUPER, this, over, [], fields, methods), target(LONG_NAME), holder(ARGUMENT, OBJECT)]


def one_interface():
    """A class that lists one interface of a long name again and again."""
    pool = Pool()
    this, over, listed = pool.named(7, b"p/C0"), pool.named(7, OBJECT), pool.named(7, LONG_NAME)
    listing = joined(pool, PUBLIC | SUPER, this, over, [listed] * METHOD_LIMIT, [], [main_method(pool)])
    return [listing, class_file(LONG_NAME, OBJECT, [], PUBLIC | INTERFACE | ABSTRACT, b"")]


HOSTILE = (
    ("900 ordinary classes", lambda: [ordinary(k, 900) for k in range(900)]),
    ("45,000 methods of one long name", of_one_name),
    ("45,000 methods of one long descriptor", of_one_desc),
    ("45,000 fields of one long type", fields_of_one_type),
    ("one interface of a long name, 65,000 times", one_interface),
    ("2 classes of 65,000 methods, all overridden", lambda: overridden(2, METHOD_LIMIT)),
    ("10 classes of 65,000 methods, all overridden", lambda: overridden(10, METHOD_LIMIT)),
    ("1,000 classes of 1,000 methods, all overridden", lambda: overridden(1000, 1000)),
    ("100 classes of a long package, 100 methods", lambda: overridden(100, 100, ABSTRACT, b"P" * 30000 + b"/")),
    ("13,000 casts to a class of a long name", lambda: long_named(casts)),
    ("13,000 casts to arrays of such a class", lambda: long_named(array_casts)),
    ("16,000 calls in such a class", lambda: long_named(calls)),
    ("16,000 reads of a field in such a class", lambda: long_named(reads)),
    ("16,000 reads of a field of its type", lambda: long_named(long_reads)),
    ("16,000 objects of such a class", lambda: long_named(news)),
    ("21,000 calls with 255 arguments of a long name", lambda: long_named(many_called)),
    ("20,000 items not found, a chain of 1,000 classes", lambda: unused_items(1000, 0, 20000)),
    ("the same, 500 classes that list 500 interfaces", lambda: unused_items(500, 500, 20000)),
    ("200 array types of 255 dimensions", lambda: array_types(200)),
)

KINDS = (("a flat set", flat), ("a chain", chain), ("a diamond of interfaces", diamond))


def written(folder, files):
    paths = []
    for number, file in enumerate(files):
        paths.append(os.path.join(folder, f"{number}.class"))
        with open(paths[-1], "wb") as out:
            out.write(file)
    return paths


def main():
    need_programs(CJVM)
    with tempfile.TemporaryDirectory() as folder:
        small = least_time([CJVM, "check", *written(folder, flat(1))], (0,), None)
        print(f"one class: {small * 1000:.2f} ms")
        for name, make in KINDS:
            for count in COUNTS:
                files = make(count)
                size = sum(map(len, files))
                words = [CJVM, "check", *written(folder, files)]
                took, memory = least_time(words, (0,), None), most_memory(words)
                net = max(took - small, 0) / count * 1e6
                print(
                    f"{name:24} {count:5} classes, {size:8} bytes: "
                    f"{took * 1000:8.2f} ms, {net:7.1f} us a class, {memory:4.0f} MB"
                )
        for name, make in HOSTILE:
            files = make()
            size = sum(map(len, files))
            words = [CJVM, "check", *written(folder, files)]
            took, memory = least_time(words, (0, 3), None), most_memory(words)
            print(f"{name:48} {size:8} bytes: {took * 1000:9.2f} ms, {took * 1e9 / size:7.1f} ms a megabyte, {memory:4.0f} MB")


main()
