#!/usr/bin/env python3
"""Tells which files of definitions the clauses of the top call rest on and docs/READING.md doesn't name.

A clause rests on the definitions whose names stand in it, and these on those whose names stand in them; a file is rested on
where one of its definitions is. Prints each file that is missing, and each that is named and not rested on; exits with 1 where
there is one. Usage: tools/reading.py
"""
import functools
import os
import re
import sys

TOP = os.path.dirname(os.path.dirname(os.path.abspath(__file__)))
CLAUSES = "crates/one_jvm/src/top.rt"
PAGE = "docs/READING.md"
USE = re.compile(r"^\s*(?:pub |ghost )?use Rattle\.(\w+)\.specs\.([\w.]+?)(?:\.\{([^}]*)\})?(?: as (\S+?))?;?$", re.MULTILINE)
HEAD = re.compile(r"^(?:pub |abbrev |unfoldable )*(?:record |data |mod )?(\S+)")
WORD = re.compile(r"[^\s(){};,λ]+")


def read(path):
    with open(os.path.join(TOP, path), encoding="utf-8") as text:
        return text.read()


def file_of(crate, module):
    """The file of a module of definitions, if it is one: not what Rattle derives from the code."""
    path = f"crates/{crate}/specs/{module.replace('.', '/')}.antt"
    return path if os.path.exists(os.path.join(TOP, path)) else None


@functools.lru_cache(maxsize=None)
def imports(path):
    """Of each name that a file imports, its file and its name there; of a module under a name, its file."""
    names, modules = {}, {}
    for crate, module, listed, alias in USE.findall(read(path)):
        file = file_of(crate, module)
        if file is None:
            continue
        if alias and not listed:
            modules[alias] = file
        for item in listed.split(","):
            name, _, other = item.strip().partition(" as ")
            if name:
                names[other or name] = (file, name)
    return names, modules


@functools.lru_cache(maxsize=None)
def definitions(path):
    """Of each definition of a file, its text; lines that are indented or of the same name belong to it."""
    found, name = {}, None
    for line in read(path).splitlines():
        if line.startswith(("--", "use ", "pub use ")) or not line.strip():
            continue
        if not line[0].isspace():
            name = HEAD.match(line).group(1)
        found[name] = found.get(name, "") + line + "\n"
    return found


def named_in(text, path):
    """The definitions that a text of a file names."""
    names, modules = imports(path)
    own = definitions(path) if path.endswith(".antt") else {}
    for word in set(WORD.findall(text)):
        module, dot, rest = word.partition(".")
        if word in names:
            yield names[word]
        elif dot and module in modules:
            yield modules[module], rest
        elif word in own:
            yield path, word


def clauses():
    """The clauses of the public calls."""
    return "\n".join(re.findall(r"^pub fn .*?^\{$", read(CLAUSES), re.MULTILINE | re.DOTALL))


def all_used():
    seen, todo = set(), list(named_in(clauses(), CLAUSES))
    while todo:
        path, name = todo.pop()
        if (path, name) not in seen:
            seen.add((path, name))
            todo += named_in(definitions(path).get(name, ""), path)
            # a name that a file hands on
            if name in imports(path)[0]:
                todo.append(imports(path)[0][name])
    return {path for path, _ in seen}


def all_named():
    """The files that the page's rows name: a crate, and after it files of its specs."""
    named = set()
    for row in re.findall(r"^\| (\w+) (`[^|]*`) \|", read(PAGE), re.MULTILINE):
        for name in re.findall(r"`(?:specs/)?([\w/]+)\.antt`", row[1]):
            named.add(f"crates/{row[0]}/specs/{name}.antt")
    return named


def main():
    used, named = all_used(), all_named()
    for path in sorted(used - named):
        print(f"{PAGE} doesn't name {path}")
    for path in sorted(named - used):
        print(f"{PAGE} names {path}, on which no clause rests")
    sys.exit(1 if used != named else 0)


main()
