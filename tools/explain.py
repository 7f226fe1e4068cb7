#!/usr/bin/env python3
"""Explains what chuckfix says: shows the entry of docs/REFUSALS.md for each line of a refusal or a trap
that stands on standard input, with the line of the source under it.

    chuckfix check a.ck | tools/explain.py
    tools/explain.py --test [PROGRAM]      runs the programs of all entries, and looks whether each
                                           answers as its entry says

Lines that are no refusal are passed on. The status is 0, and with --test 1 where an answer differs."""

import argparse
import os
import re
import subprocess
import sys
import tempfile

TOP = os.path.dirname(os.path.dirname(os.path.realpath(__file__)))
PAGE = os.path.join(TOP, "docs", "REFUSALS.md")
ENTRY = re.compile(r"^## `([^`]+)`\n(.*?)(?=^## |\Z)", re.MULTILINE | re.DOTALL)
PROGRAM = re.compile(r"^```(sh)?\n(.*?)^```$", re.MULTILINE | re.DOTALL)
ANSWER = re.compile(r"^`([^`]+)`: (.*), status (\d)\.$", re.MULTILINE)
REFUSAL = re.compile(r"^(?P<file>.*?)(?::(?P<line>\d+))?: (?P<name>too long|lex|syntax|too deep|type \w+|not built)$")
TRAP = re.compile(r"^(?P<name>trap \w+) shred \d+ sample -?\d+ (?P<file>.*):(?P<line>\d+)$")


def entries():
    """The entries by their names."""
    with open(PAGE, encoding="utf-8") as page:
        return dict(ENTRY.findall(page.read()))


def source_line(file, number):
    """A line of a source; none where it can't be read."""
    try:
        with open(file, encoding="utf-8", errors="replace") as lines:
            return next((line.rstrip("\n") for at, line in enumerate(lines, 1) if at == number), None)
    except OSError:
        return None


def explain(line, told):
    """Writes a line, the source under it, and its entry where it has one."""
    print(line)
    found = TRAP.match(line) or REFUSAL.match(line)
    if not found or found["name"] not in told:
        return
    text = found["line"] and source_line(found["file"], int(found["line"]))
    if text is not None:
        print(f"{found['line']:>6} | {text}")
    print("\n" + told[found["name"]].strip() + "\n")


def answers_as_told(name, entry, program):
    """Whether the program of an entry answers as the entry says; none where it has no program."""
    text, told = PROGRAM.search(entry), ANSWER.search(entry)
    if not text or not told:
        return None
    with tempfile.TemporaryDirectory() as room:
        if text[1]:
            subprocess.run(["bash", "-c", text[2]], cwd=room, check=True)
        else:
            with open(os.path.join(room, "a.ck"), "w", encoding="utf-8") as file:
                file.write(text[2])
        ran = subprocess.run([program, *told[1].split()], cwd=room, stdout=subprocess.PIPE, check=False)
    wanted = "".join(line + "\n" for line in re.findall(r"`([^`]+)`", told[2]))
    if ran.stdout.decode() == wanted and ran.returncode == int(told[3]):
        return True
    print(f"{name}: wants {told[2]} and status {told[3]}, got {ran.stdout.decode()!r} and {ran.returncode}")
    return False


def main():
    """Explains standard input, or tries the entries."""
    options = argparse.ArgumentParser(
        description=__doc__, formatter_class=argparse.RawDescriptionHelpFormatter
    )
    options.add_argument("--test", action="store_true")
    options.add_argument("program", nargs="?", default=os.path.join(TOP, "chuckfix"))
    options = options.parse_args()
    told = entries()
    if options.test:
        tried = [answers_as_told(name, entry, options.program) for name, entry in told.items()]
        print(f"explain: {tried.count(True)} of {len(told)} entries answer as told, {tried.count(None)} have no program")
        return 0 if tried.count(True) and not tried.count(False) else 1
    for line in sys.stdin:
        explain(line.rstrip("\n"), told)
    return 0


if __name__ == "__main__":
    sys.exit(main())
