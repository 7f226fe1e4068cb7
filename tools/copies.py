#!/usr/bin/env python3
"""Looks whether what the documents show is what the gate plays and proves, to the byte.

    tools/copies.py

Each file of examples/ has to be a file of some case, and so has each block of code in
docs/PROGRAMS.md and docs/TEACHING.md that is no call of the command. Each block of definitions in
docs/THEOREM.md has to stand in the definitions or the contracts of some crate. What doesn't is named,
with its first line, and the status is 1."""

import glob
import os
import re
import sys

TOP = os.path.dirname(os.path.dirname(os.path.realpath(__file__)))
SHOWN = ("PROGRAMS.md", "TEACHING.md")
QUOTED = "THEOREM.md"
BLOCK = re.compile(r"^```(?:antt)?\n(.*?)^```$", re.MULTILINE | re.DOTALL)


def text_of(path):
    """The text of a file below the top of the repository."""
    with open(os.path.join(TOP, path), encoding="utf-8") as file:
        return file.read()


def files_of(cases):
    """The files of a case file that are written in lines."""
    lines = None
    for row in cases.split("\n"):
        if lines is not None and row.startswith("| "):
            lines.append(row[2:] + "\n")
        elif lines is not None and row == "|":
            lines.append("\n")
        else:
            if lines:
                yield "".join(lines)
            lines = [] if row.startswith("file ") else None


def below(pattern):
    """The texts of the files that lie so below the top of the repository, each with its place."""
    for path in sorted(glob.glob(os.path.join(TOP, pattern), recursive=True)):
        yield os.path.relpath(path, TOP), text_of(path)


def blocks(name):
    """The blocks of a document, each with where it stands."""
    text = text_of(f"docs/{name}")
    for block in BLOCK.finditer(text):
        line = text.count("\n", 0, block.start()) + 2
        yield f"docs/{name}:{line}", block[1]


def programs():
    """The programs that are shown, each with where it stands."""
    yield from below("examples/*.ck")
    for name in SHOWN:
        yield from (block for block in blocks(name) if not block[1].startswith("$ "))


def main():
    """Names what is shown and stands nowhere else."""
    played = {file for _, text in below("crates/chuckfix_cases/data/*.cases") for file in files_of(text)}
    proved = [text for part in ("specs/**/*.antt", "src/**/*.rt") for _, text in below(f"crates/*/{part}")]
    looks = [(where, text, text in played) for where, text in programs()]
    looks += [(where, text, any(text in it for it in proved)) for where, text in blocks(QUOTED)]
    for where, text, stands in looks:
        if not stands:
            print(f"{where}: it stands nowhere else: {text.splitlines()[0] if text else ''}")
    found = sum(stands for _, _, stands in looks)
    print(f"copies: {found} of {len(looks)} programs and definitions are as they stand elsewhere")
    return 0 if looks and found == len(looks) else 1


if __name__ == "__main__":
    sys.exit(main())
