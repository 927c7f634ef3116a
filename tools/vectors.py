#!/usr/bin/env python3
"""Makes data/, args and stdout of a crate over test files from the listed texts.

    tools/vectors.py LISTED [LISTED..] crates/vectors

A folder LISTED has, for each NAME.bin, the text that `planlist` must print (NAME.plan) and that of `judgelist` (NAME.judge); that of
`showlist` is made by show_text.py. Names of the first folder stay as they are; those of each other one are led by its own name, as in
`L01-000-deflen.bin`. Nothing here runs the programs: what they must print is what is listed or made so.
"""
import sys
from pathlib import Path

from show_text import show


def named(folders):
    """The files of all folders, each behind the name that it gets."""
    files = {}
    for folder in folders:
        lead = "" if folder == folders[0] else folder.name + "-"
        for file in sorted(folder.glob("*.bin")):
            if files.setdefault(lead + file.name, file) is not file:
                sys.exit(f"vectors.py: two files would be called {lead + file.name}")
    return files


def main():
    if len(sys.argv) < 3:
        sys.exit("usage: tools/vectors.py LISTED [LISTED..] CRATE")
    folders, crate = [Path(word).resolve() for word in sys.argv[1:-1]], Path(sys.argv[-1])
    files, data, text = named(folders), crate / "data", b""
    data.mkdir(parents=True, exist_ok=True)
    for old in data.iterdir():
        old.unlink()
    for name, file in files.items():
        (data / name).write_bytes(file.read_bytes())
        text += name.encode() + b"\n" + file.with_suffix(".plan").read_bytes() + file.with_suffix(".judge").read_bytes()
        text += show(file.read_bytes())
    (crate / "args").write_text("".join(name + "\n" for name in files))
    (crate / "stdout").write_bytes(text)


main()
