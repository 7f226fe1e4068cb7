#!/usr/bin/env python3
"""Proves and builds the program: `chuckfix` at the top of the repository calls it where no program is
built of the sources as they are.

It runs the gate over the program and the crates on which it stands: `rt ci` in a copy that has these
alone, without their must-fail edits. The kit keeps on the machine what it proves there, so the gate
proves none of it again, and this proves nothing that the gate has proved. Where standard error is a terminal
it tells how many of the crates are kept so far. The status is 1 where anything isn't proved, and then
the gate's words are on standard error."""

import os
import shutil
import subprocess
import sys
import tempfile

from check_kept import Store
from check_only import below, crates_in

TOP = os.path.dirname(os.path.dirname(os.path.realpath(__file__)))
PROGRAM = "chuckfix"
LEFT_OUT = shutil.ignore_patterns("out", "must-fail")
EVERY = 5


def lay_out(top):
    """Lays a repository out in a folder, of the program and the crates on which it stands."""
    crates = crates_in(TOP)
    names = [*below(crates, PROGRAM), PROGRAM]
    with open(f"{top}/crates.txt", "w", encoding="utf-8") as lines:
        lines.writelines(f"{name}: {' '.join(crates[name])}\n" for name in names)
    shutil.copy(f"{TOP}/HANDLES", top)
    os.mkdir(f"{top}/.git")
    for name in names:
        shutil.copytree(f"{TOP}/crates/{name}", f"{top}/crates/{name}", ignore=LEFT_OUT)


def tell_progress(gate, top):
    """Tells how many of the crates are proved, as far as the toolchain keeps them, until it ends."""
    names = [*below(crates_in(TOP), PROGRAM), PROGRAM]
    store = Store(top)
    while gate.poll() is None:
        proved = sum(store.look(name) for name in names)
        print(f"\rchuckfix: {proved} of {len(names)} crates are proved\x1b[K", end="", file=sys.stderr, flush=True)
        try:
            gate.wait(EVERY)
        except subprocess.TimeoutExpired:
            pass
    print("\r\x1b[K", end="", file=sys.stderr, flush=True)


def main():
    """Proves the program, and leaves it in its crate's own folder."""
    out = f"{TOP}/crates/{PROGRAM}/out"
    with tempfile.TemporaryDirectory() as top, tempfile.TemporaryFile() as words:
        lay_out(top)
        gate = subprocess.Popen(
            ["rt", "ci"], cwd=top, stdin=subprocess.DEVNULL, stdout=words, stderr=subprocess.STDOUT
        )
        if sys.stderr.isatty():
            tell_progress(gate, top)
        if gate.wait():
            words.seek(0)
            sys.stderr.buffer.write(words.read())
            sys.exit(1)
        os.makedirs(out, exist_ok=True)
        shutil.copy(f"{top}/crates/{PROGRAM}/out/{PROGRAM}", f"{out}/{PROGRAM}.new")
        # An older one may be running, and is left to it.
        os.replace(f"{out}/{PROGRAM}.new", f"{out}/{PROGRAM}")


if __name__ == "__main__":
    main()
