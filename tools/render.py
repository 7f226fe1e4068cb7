#!/usr/bin/env python3
"""Renders as `chuckfix render` does, and shows how far it has come.

    tools/render.py N OUT FILE [FILE ..]

Where standard error is a terminal, a line there tells how much of the sheet is written, how fast that is
beside real time, and how long the rest will take; the size of the sheet tells it. What the program
prints, and its status, are those of `chuckfix render`, and so is its end by a signal. CHUCKFIX names the
program where it isn't the launcher."""

import os
import signal
import subprocess
import sys
import time

TOP = os.path.dirname(os.path.dirname(os.path.realpath(__file__)))
RATE = 44_100
HEADER, FRAME = 44, 2
EVERY = 0.2


def clock(seconds):
    """So many seconds as minutes and seconds."""
    return f"{int(seconds) // 60}:{int(seconds) % 60:02}"


def line_of(done, samples, took):
    """What is told when so many samples are written after so many seconds."""
    share = done / samples if samples else 1.0
    speed = done / RATE / took if took else 0.0
    rest = clock((samples - done) / RATE / speed) if speed else "-:--"
    bar = ("#" * int(share * 30)).ljust(30, ".")
    return f"{share:4.0%} [{bar}] {clock(done / RATE)} of {clock(samples / RATE)}, {speed:.1f} of real time, {rest} left"


def written(out, begun):
    """How many samples of a sheet that was begun in this call are written; none where that can't be told."""
    try:
        found = os.stat(out)
    except OSError:
        return None
    if not os.path.isfile(out) or found.st_mtime < begun - 1:
        return None
    return max(0, found.st_size - HEADER) // FRAME


def watch(process, out, samples):
    """Tells how far the sheet has come until the program ends."""
    began, start, shown = time.time(), time.monotonic(), False
    while process.poll() is None:
        done = written(out, began)
        if done is not None:
            line = line_of(min(done, samples), samples, time.monotonic() - start)
            print(f"\r{line}\x1b[K", end="", file=sys.stderr, flush=True)
            shown = True
        time.sleep(EVERY)
    if shown:
        print("\r\x1b[K", end="", file=sys.stderr, flush=True)


def main(words):
    """Runs the program, and ends as it does."""
    if words[:1] in (["-h"], ["--help"]):
        print(__doc__)
        return 0
    program = os.environ.get("CHUCKFIX", os.path.join(TOP, "chuckfix"))
    process = subprocess.Popen([program, "render", *words])
    # a signal from the terminal reaches the program too, which then ends by it
    signal.signal(signal.SIGINT, signal.SIG_IGN)
    signal.signal(signal.SIGTERM, lambda number, _: process.send_signal(number))
    if len(words) > 2 and words[0].isdecimal() and sys.stderr.isatty():
        watch(process, words[1], int(words[0]))
    status = process.wait()
    if status < 0:
        signal.signal(-status, signal.SIG_DFL)
        os.kill(os.getpid(), -status)
    return status


if __name__ == "__main__":
    sys.exit(main(sys.argv[1:]))
