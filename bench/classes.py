"""Class files, built from their parts."""
import struct

# the greatest length of a class file that the programs read
LIMIT = 1_048_576


def text(word):
    return b"\x01" + struct.pack(">H", len(word)) + word


def class_file(texts, fields=(), methods=(), items=()):
    """A class file whose texts have the indices from 5 on, and behind them these items of its pool."""
    pool = [text(b"A"), b"\x07\x00\x01", text(b"Code"), text(b"I")] + [text(word) for word in texts]
    pool.extend(items)
    parts = [b"\xca\xfe\xba\xbe\x00\x00\x00\x2e", struct.pack(">H", len(pool) + 1), *pool]
    parts.append(struct.pack(">HHHH", 0x21, 2, 0, 0))
    for members in (fields, methods):
        parts.append(struct.pack(">H", len(members)))
        parts.extend(members)
    parts.append(b"\x00\x00")
    return b"".join(parts)


def method(name, desc, code):
    contents = struct.pack(">HHI", 2, 2, len(code)) + code + bytes(4)
    return struct.pack(">HHHHHI", 9, name, desc, 1, 3, len(contents)) + contents


def each_file(kinds, path):
    """Writes the class files of these kinds and sizes there, one after the other, an empty file first.

    Gives each file's kind and length; those of the empty file are None and 0."""
    for name, make, sizes in ((None, lambda size: b"", (0,)), *kinds):
        for size in sizes:
            file = make(size)
            assert len(file) <= LIMIT, (name, len(file))
            with open(path, "wb") as out:
                out.write(file)
            yield name, len(file)
