"""Writes crates/program_tests/src/classes.rt: the class files of examples/rows, as bytes for the tests.

    python3 tools/program_rows.py
"""

import pathlib
import re
import subprocess
import sys
import tempfile

TOP = pathlib.Path(__file__).resolve().parent.parent
WIDTH = 92

# casts to byte, char and short right before the stores that cut by themselves: bastore, castore, sastore,
# putstatic, putfield
CUT_STORES = re.compile(b"[\x91\x92\x93](?=[\x54\x55\x56\xb3\xb5])")
# the files whose casts are taken out, and how many each has
WITHOUT_CASTS = {"Stores": 7, "Cuts": 9}


def without_casts(name, data):
    """The class file with nop in place of such casts."""
    data, count = CUT_STORES.subn(b"\x00", data)
    assert count == WITHOUT_CASTS[name], (name, count)
    return data


def pieces(data):
    """The bytes as in a byte string, in lines."""
    line = ""
    for byte in data:
        char = chr(byte)
        if 32 <= byte < 127 and char not in '"\\':
            word = char
        else:
            word = f"\\x{byte:02x}"
        # a blank at the head of a line would be skipped behind a line's end
        if len(line) + len(word) > WIDTH and char != " ":
            yield line
            line = ""
        line += word
    yield line


def main():
    sources = sorted(str(path) for path in (TOP / "examples" / "rows").glob("*.java"))
    with tempfile.TemporaryDirectory() as folder:
        tool = str(TOP / "tools" / "old_classes.py")
        subprocess.run([sys.executable, tool, folder, *sources], check=True, stdout=subprocess.DEVNULL)
        text = ["//! Class files of the programs in examples/rows, written by tools/program_rows.py."]
        for path in sorted(pathlib.Path(folder).glob("*.class")):
            data = path.read_bytes()
            if path.stem in WITHOUT_CASTS:
                data = without_casts(path.stem, data)
                path.write_bytes(data)
            name = path.stem.replace("$", "_").upper()
            lines = list(pieces(data))
            text.append("")
            text.append(f"/// {path.stem}")
            text.append(f"pub const {name}: &[u8; {len(data)}] =")
            body = "\\\n    ".join(lines)
            text.append(f'    b"{body}";')
    (TOP / "crates" / "program_tests" / "src" / "classes.rt").write_text("\n".join(text) + "\n", encoding="utf-8")


if __name__ == "__main__":
    main()
