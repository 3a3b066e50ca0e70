"""Writes the stored run of crates/cjvm_edges_run: the class files of examples/edges, the words of the call, and what
`java` prints for these files.

    python3 tools/edge_files.py
"""

import pathlib
import shutil
import subprocess

from old_classes import compile_old
from program_rows import without_casts

TOP = pathlib.Path(__file__).resolve().parent.parent
SOURCES = TOP / "examples" / "edges"
CRATE = TOP / "crates" / "cjvm_edges_run"
MAIN = "Edges"
# the class whose stores are to cut by themselves
CUTS = "Cuts"


def class_files(data):
    """The classes as they stand beside each other, and then those that change, in their place."""
    later = set((SOURCES / "after").glob("*.java"))
    first = set(SOURCES.rglob("*.java")) - later
    compile_old(data, sorted(first))
    paths = compile_old(data, sorted(later))
    cuts = data / f"{CUTS}.class"
    cuts.write_bytes(without_casts(CUTS, cuts.read_bytes()))
    return [str(path.relative_to(data)) for path in paths]


def main():
    data = CRATE / "data"
    shutil.rmtree(data, ignore_errors=True)
    words = ["run", "--main", MAIN, *class_files(data)]
    (CRATE / "args").write_text("\n".join(words) + "\n", encoding="utf-8")
    java = ["java", "-Dfile.encoding=UTF-8", "-cp", data, MAIN]
    printed = subprocess.run(java, check=True, stdout=subprocess.PIPE).stdout
    (CRATE / "stdout").write_bytes(printed)


if __name__ == "__main__":
    main()
