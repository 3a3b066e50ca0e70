#!/usr/bin/env python3
"""Makes a tree in which some crates can be proved before the crates below them are.

    python3 tools/stub_tree.py FOLDER CRATE..
    make -C FOLDER -k -j2

The named crates stand in FOLDER as they are here. Of each crate below them stand the definitions and the contracts; each body is
a call of a C function that is declared to give a proof of anything, and of the proofs those modules are kept that the named crates or
the definitions cite. So the crates below are checked in seconds, from the bottom up, each by a target of FOLDER/Makefile; then work goes
on in FOLDER/crates/CRATE with `RT_ALLOW_C=1 rt check`. What is proved there is proved over contracts that nothing holds up: it counts
only once the gate has proved it over the real crates.
"""
import os
import re
import subprocess
import sys

TOP = os.path.dirname(os.path.dirname(os.path.abspath(__file__)))
BASE = "jvm_base"
NEVER = """//! A call that never returns.
mod c {
    unsafe extern "C" {
        pub safe fn cjvm_stub()
            ensures { ⊥ };
    }
}

pub fn never() -> ! {
    c::cjvm_stub();
    unreachable!()
}
"""
FUNCTION = re.compile(r"(const\s+)?fn\s+\w+")
CLAUSE = re.compile(r"(requires|ensures|decreases)\b")
CHARACTER = re.compile(r"'(\\[^']*|[^\\'])'")
CITED = re.compile(r"Rattle\.(\w+)\.proofs\.([\w.\-]+)")
USED = re.compile(r"\b(\w+)::proofs::([\w:]+)")
TACTIC = re.compile(r"^[ \t]*#\[tactic\(auto,[^\]]*\)\]\n", re.MULTILINE)


# ---- crates and their files


def read_crates():
    """Of each crate the libraries that it uses, in the order of the file."""
    crates = {}
    with open(os.path.join(TOP, "crates.txt"), encoding="utf-8") as lines:
        for line in lines:
            name, colon, uses = line.strip().partition(":")
            if colon and not name.startswith("#"):
                crates[name] = uses.split()
    return crates


def with_all_below(names, crates):
    found, todo = set(), list(names)
    while todo:
        name = todo.pop()
        if name in crates and name not in found:
            found.add(name)
            todo += crates[name]
    return [name for name in crates if name in found]


def files_in(crate, part):
    """The files of a part of a crate (src, specs, proofs), each with its path in the crate."""
    top = os.path.join(TOP, "crates", crate)
    for folder, _, names in os.walk(os.path.join(top, part)):
        for name in sorted(names):
            path = os.path.join(folder, name)
            with open(path, encoding="utf-8") as text:
                yield os.path.relpath(path, top), text.read()


def write(folder, path, text):
    place = os.path.join(folder, path)
    os.makedirs(os.path.dirname(place), exist_ok=True)
    with open(place, "w", encoding="utf-8") as file:
        file.write(text)


# ---- bodies


def past_plain(text, at):
    """The place past a comment, a string or a character that begins there, or the same place."""
    if text.startswith("//", at):
        return text.index("\n", at)
    if text[at] == '"':
        at += 1
        while text[at] != '"':
            at += 2 if text[at] == "\\" else 1
        return at + 1
    if text[at] == "'":
        found = CHARACTER.match(text, at)
        return found.end() if found else at + 1
    return at


def past_brackets(text, at):
    """The place past the bracket that closes the one there."""
    closing, due = {"{": "}", "(": ")", "[": "]"}, []
    while True:
        behind = past_plain(text, at)
        if behind != at:
            at = behind
            continue
        if text[at] in closing:
            due.append(closing[text[at]])
        elif due and text[at] == due[-1]:
            due.pop()
            if not due:
                return at + 1
        at += 1


def next_function(text, at):
    """The next function's head, comments and strings aside."""
    while at < len(text):
        behind = past_plain(text, at)
        if behind != at:
            at = behind
        elif text[at].isalpha() or text[at] == "_":
            found = FUNCTION.match(text, at)
            if found:
                return found
            at = re.compile(r"\w+").match(text, at).end()
        else:
            at += 1
    return None


def body_of(text, at):
    """Where the body of the function begins and ends whose name ends there; None where it has none."""
    while True:
        behind = past_plain(text, at)
        clause = CLAUSE.match(text, at)
        if behind != at:
            at = behind
        elif text[at] == ";":
            return None
        elif text[at] in "([":
            at = past_brackets(text, at)
        elif text[at] == "{":
            return at, past_brackets(text, at)
        elif clause:
            at = past_brackets(text, text.index("{", clause.end()))
        else:
            at += 1


def without_bodies(text, call):
    """The text with a call in place of each body, but for those of constants."""
    parts, at = [], 0
    while head := next_function(text, at):
        body = body_of(text, head.end())
        end = head.end() if body is None else body[1]
        if body is None or head.group(1):
            parts.append(text[at:end])
        else:
            parts += [text[at : body[0]], "{\n    " + call + "\n}"]
        at = end
    return TACTIC.sub("", "".join(parts) + text[at:])


# ---- proofs


def cited_in(crate, part):
    """The modules of proofs that a part of a crate cites, each with its crate."""
    for _, text in files_in(crate, part):
        yield from CITED.findall(text)
        for other, module in USED.findall(text):
            yield (crate if other == "crate" else other), module.replace("::", ".")


def needed_modules(whole, stubbed):
    """Of each stubbed crate, the modules of its proofs that are needed, by their names."""
    modules = {}
    for crate in stubbed:
        texts = files_in(crate, "proofs")
        modules[crate] = {path[len("proofs/") : -len(".antt")].replace("/", "."): text for path, text in texts}
    todo = [cite for crate in stubbed for cite in cited_in(crate, "specs")]
    todo += [cite for crate in whole for part in ("src", "specs", "proofs") for cite in cited_in(crate, part)]
    needed = {crate: {} for crate in stubbed}
    while todo:
        crate, module = todo.pop()
        known = modules.get(crate, {})
        while module and module not in known:
            module = module.rpartition(".")[0]
        if module and module not in needed[crate]:
            needed[crate][module] = known[module]
            todo += CITED.findall(known[module])
    return needed


def write_proofs(folder, crate, modules):
    """Writes some modules of a crate's proofs, and the lists of those that are there."""
    inner = {}
    for module, text in modules.items():
        write(folder, f"crates/{crate}/proofs/{module.replace('.', '/')}.antt", text)
        parts = module.split(".")
        for depth in range(len(parts)):
            inner.setdefault(tuple(parts[:depth]), set()).add(parts[depth])
    for outer in set(inner) | {()}:
        listed = "".join(f"pub mod {name}\n" for name in sorted(inner.get(outer, ())))
        place = "/".join(outer) if outer else "Lib"
        if ".".join(outer) not in modules:
            write(folder, f"crates/{crate}/proofs/{place}.antt", listed)


# ---- the tree


def write_stub(folder, crate, modules):
    call = "crate::never()" if crate == BASE else f"{BASE}::never()"
    for path, text in files_in(crate, "src"):
        write(folder, f"crates/{crate}/{path}", without_bodies(text, call))
    for path, text in files_in(crate, "specs"):
        write(folder, f"crates/{crate}/{path}", text)
    write_proofs(folder, crate, modules)


def write_never(folder):
    """Adds the call that never returns to the lowest crate."""
    write(folder, f"crates/{BASE}/src/nevermore.rt", NEVER)
    write(folder, f"crates/{BASE}/c/stub.c", "void cjvm_stub(void) {}\n")
    path = os.path.join(folder, "crates", BASE, "src", "lib.rt")
    with open(path, encoding="utf-8") as file:
        text = file.read()
    text = text.replace("\nmod ", "\nmod nevermore;\nmod ", 1).replace("\npub use ", "\npub use nevermore::never;\npub use ", 1)
    write(folder, f"crates/{BASE}/src/lib.rt", text)


def write_makefile(folder, names, crates):
    lines = ["all: " + " ".join(f".done/{name}" for name in names)]
    for name in names:
        uses = " ".join(f".done/{use}" for use in crates[name] if use in names)
        lines.append(f".done/{name}: {uses}\n\t@mkdir -p .done\n\tcd crates/{name} && RT_ALLOW_C=1 rt check --jobs 1 >../../.done/{name}.log 2>&1\n\ttouch $@")
    write(folder, "Makefile", "\n\n".join(lines) + "\n")


def main(folder, whole):
    crates = read_crates()
    names = with_all_below(whole, crates)
    stubbed = [name for name in names if name not in whole and (name == BASE or BASE in crates[name])]
    for crate, modules in needed_modules([name for name in names if name not in stubbed], stubbed).items():
        write_stub(folder, crate, modules)
    for crate in names:
        if crate not in stubbed:
            for part in ("src", "specs", "proofs"):
                for path, text in files_in(crate, part):
                    write(folder, f"crates/{crate}/{path}", text)
    write_never(folder)
    write(folder, "crates.txt", "".join(f"{name}: {' '.join(crates[name])}\n" for name in names))
    write(folder, "HANDLES", "Handles allowed: Threads, Wait.\n")
    write_makefile(folder, names, crates)
    subprocess.run(["git", "init", "-q", folder], check=True)


if __name__ == "__main__":
    if len(sys.argv) < 3 or os.path.exists(sys.argv[1]):
        sys.exit(__doc__)
    main(sys.argv[1], sys.argv[2:])
