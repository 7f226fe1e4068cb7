#!/usr/bin/env python3
"""Runs the gate and tells what each crate took of it: tools/minutes.py [WORDS OF rt ci].

    tools/minutes.py --launcher     the same of the launcher's call in place of the gate: in a fresh
                                    clone it is the first one, and proves all that the program is
                                    and that the kit doesn't keep of an earlier run on the machine

It looks every two seconds at the processes of the checker that prove this checkout, and at the end,
or where it is interrupted, prints the rows of docs/GATE.md in processor minutes: the proof of each
crate, its tests, its must-fail edits with how many there are, the proof that the edits begin with,
and one of them in the mean. What was kept of an earlier run takes nothing and has no row:
`tools/minutes.py --anew` measures all. Other work on the machine makes every row greater, and the
time by the clock more than that, so let there be none. The status is that of what ran."""

import collections
import os
import re
import signal
import subprocess
import sys
import time

TOP = os.path.dirname(os.path.dirname(os.path.realpath(__file__)))
TICKS = os.sysconf("SC_CLK_TCK")
EVERY = 2.0


def words_of(process):
    """The command line of a process."""
    with open(f"/proc/{process}/cmdline", encoding="utf-8", errors="replace") as text:
        return text.read().split("\0")


def times_of(process):
    """What a process and those that it started and that have ended have taken so far, in seconds,
    and what tells it from others of its number."""
    with open(f"/proc/{process}/stat", encoding="utf-8", errors="replace") as text:
        fields = text.read().rpartition(")")[2].split()
    return sum(map(int, fields[11:15])) / TICKS, fields[19]


class Seen:
    """The checker's processes, each with its words and the seconds that it took."""

    def __init__(self):
        self.words = {}
        self.seconds = {}

    def look(self):
        """Takes down what each process has taken."""
        for process in filter(str.isdigit, os.listdir("/proc")):
            try:
                taken, begun = times_of(process)
                key = (process, begun)
                if key not in self.words:
                    self.words[key] = words_of(process)
                self.seconds[key] = taken
            except (OSError, IndexError, ValueError):
                pass

    def parts(self):
        """The seconds of each part of each crate: proof, tests, seed, edits, and how many edits."""
        parts = collections.defaultdict(lambda: collections.defaultdict(float))
        for key, words in self.words.items():
            if os.path.basename(words[0]) != "rattle" or "--crate-name" not in words:
                continue
            if not any(TOP in word for word in words):
                continue
            crate = words[words.index("--crate-name") + 1]
            part = part_of(words, parts[crate])
            parts[crate][part] += self.seconds[key]
            if part == "edits":
                parts[crate]["count"] += 1
        return parts


def part_of(words, so_far):
    """Which part of a crate's gate a command is. A program is built by a check that has an output."""
    if words[1] != "check" or "-o" in words:
        return "tests" if "--test" in words else "proof"
    kept = words[words.index("--incremental") + 1] if "--incremental" in words else ""
    if re.search(r"/seed$", kept):
        return "last" if so_far["seed"] else "seed"
    return "edits"


def cell(seconds):
    """Seconds as minutes, or nothing."""
    return f"{seconds / 60:.1f}" if seconds else ""


def command(words):
    """What is timed: the gate, or the launcher, which answers no words by its line on usage."""
    return [f"{TOP}/chuckfix"] if words == ["--launcher"] else ["rt", "ci", *words]


def main():
    """Runs what is timed, and prints the rows."""
    seen = Seen()
    begun = time.time()
    timed = subprocess.Popen(command(sys.argv[1:]), cwd=TOP)
    signal.signal(signal.SIGTERM, signal.default_int_handler)
    try:
        while timed.poll() is None:
            seen.look()
            time.sleep(EVERY)
    except KeyboardInterrupt:
        timed.terminate()
        timed.wait()
    parts = seen.parts()
    whole = sum(row[part] for row in parts.values() for part in row if part != "count")
    print("| Crate | Proof | Tests | Edits | Seed of the edits | One edit |")
    print("|---|---|---|---|---|---|")
    for crate, row in sorted(parts.items()):
        count = int(row["count"])
        one = cell(row["edits"] / count) if count else ""
        cells = [cell(row["proof"]), cell(row["tests"]), str(count or ""), cell(row["seed"]), one]
        print(f"| `{crate}` | " + " | ".join(cells) + " |")
    print(f"{whole / 60:.0f} processor minutes, {(time.time() - begun) / 60:.1f} by the clock")
    return timed.returncode


if __name__ == "__main__":
    sys.exit(main())
