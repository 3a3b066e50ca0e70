"""Compiles Java sources to class files of version 46.

    python3 tools/old_classes.py FOLDER SOURCE..

javac of this day writes version 52 at the least (--release 8). What it writes for code without lambdas, string `+`
and the like differs from older files in the number alone, and in attributes that older machines skip. So bytes 4 to
7 of each file are set to version 46.0. Classes that are in the folder already can be used.
"""

import pathlib
import subprocess
import sys

VERSION = bytes([0, 0, 0, 46])


def compile_old(folder, sources):
    """Compiles them; answers the paths of all class files of the folder."""
    folder = pathlib.Path(folder)
    folder.mkdir(parents=True, exist_ok=True)
    subprocess.run(
        ["javac", "--release", "8", "-g:none", "-XDstringConcat=inline", "-cp", folder, "-d", folder, *sources],
        check=True,
        stderr=subprocess.DEVNULL,
    )
    paths = sorted(folder.rglob("*.class"))
    for path in paths:
        data = path.read_bytes()
        path.write_bytes(data[:4] + VERSION + data[8:])
    return paths


def main(folder, sources):
    for path in compile_old(folder, sources):
        print(path.relative_to(folder))


if __name__ == "__main__":
    main(sys.argv[1], sys.argv[2:])
