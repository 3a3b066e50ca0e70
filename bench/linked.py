"""Class files that link, built from their parts."""
import struct

PUBLIC, STATIC, SUPER, INTERFACE, ABSTRACT = 1, 8, 0x20, 0x200, 0x400
OBJECT = b"java/lang/Object"
MAIN = b"([Ljava/lang/String;)V"


class Pool:
    """The pool of a class file, each item once."""

    def __init__(self):
        self.items = []
        self.places = {}

    def add(self, item):
        if item not in self.places:
            self.items.append(item)
            self.places[item] = len(self.items)
        return self.places[item]

    def text(self, word):
        return self.add(b"\x01" + struct.pack(">H", len(word)) + word)

    def named(self, tag, word):
        return self.add(struct.pack(">BH", tag, self.text(word)))

    def pair(self, tag, first, second):
        return self.add(struct.pack(">BHH", tag, first, second))

    def member(self, tag, owner, name, desc):
        pair = self.pair(12, self.text(name), self.text(desc))
        return self.pair(tag, self.named(7, owner), pair)


def method(pool, name, desc, code, max_stack=2, max_locals=1, handlers=()):
    """A public static method; a handler is its start, end, address and class, or 0."""
    table = b"".join(struct.pack(">HHHH", *handler) for handler in handlers)
    contents = struct.pack(">HHI", max_stack, max_locals, len(code)) + code
    contents += struct.pack(">H", len(handlers)) + table + b"\x00\x00"
    head = struct.pack(">HHHH", PUBLIC | STATIC, pool.text(name), pool.text(desc), 1)
    return head + struct.pack(">HI", pool.text(b"Code"), len(contents)) + contents


def class_file(pool, name, methods, above=OBJECT):
    """A public class of these methods and a `main` that only returns."""
    this, over = pool.named(7, name), pool.named(7, above)
    methods = [method(pool, b"main", MAIN, b"\xb1"), *methods]
    parts = [b"\xca\xfe\xba\xbe\x00\x00\x00\x2e", struct.pack(">H", len(pool.items) + 1), *pool.items]
    parts.append(struct.pack(">HHHHH", PUBLIC | SUPER, this, over, 0, 0))
    parts.extend([struct.pack(">H", len(methods)), *methods, b"\x00\x00"])
    return b"".join(parts)
