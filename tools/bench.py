#!/usr/bin/python3
"""A bench for composers: renders each piece *.ck of a folder, and compares its sheet, sample by sample,
its text and its wakes, line by line, with those that were kept.

    tools/bench.py PIECES KEPT --keep      keeps the sheets, the texts and the wakes as they are now
    tools/bench.py PIECES KEPT             says of each piece whether it is as it was
    tools/bench.py --piece PIECE.ck KEPT   the same of one piece, as a line of JSON: a job of its own
    tools/bench.py --summary FILE          puts such lines together (FILE - is standard input)

Pieces are rendered side by side on all processors. What comes out is TAP, which continuous integration
reads, with what each piece took; --junit FILE writes JUnit's XML besides. A piece that differs is named
with its first sample or line, one without kept files or without a piece too. Each piece has --samples
of sound, 441,000 where none are given.

For a collection that outgrows one machine each piece is a job for an engine that is there already, as
GNU parallel over hosts that have the folders under the same names:

    ls pieces/*.ck | parallel -S one,two tools/bench.py --piece {} kept > lines
    tools/bench.py --summary lines

The status is 0 where all is as it was, 1 where something differs or is missing, and 2 where the bench
itself can't go on. It wants numpy (Debian: python3-numpy)."""

import argparse
import json
import os
import subprocess
import sys
import tempfile
import time
from concurrent.futures import ThreadPoolExecutor
from xml.etree import ElementTree

import compare

TOP = os.path.dirname(os.path.dirname(os.path.realpath(__file__)))
TRAPPED = 3
KINDS = {"sheet": "wav", "text": "txt", "wakes": "wakes"}


def made(options, piece, room):
    """Makes the sheet, the text and the wakes of a piece; what is wrong where it can't be rendered."""
    paths = {kind: os.path.join(room, f"made.{ending}") for kind, ending in KINDS.items()}
    samples = str(options.samples)
    commands = {"text": ["render", samples, paths["sheet"]], "wakes": ["wakes", samples]}
    for kind, words in commands.items():
        with open(paths[kind], "wb") as out:
            ended = subprocess.run([options.program, *words, piece], stdout=out, check=False).returncode
        # a piece with a trap is heard up to there
        if ended not in (0, TRAPPED):
            with open(paths[kind], encoding="utf-8", errors="replace") as lines:
                return paths, f"not rendered: {lines.readline().strip() or f'status {ended}'}"
    return paths, None


def first_line_apart(ours, theirs):
    """The first line in which two texts differ, as a sentence; none where they are the same."""
    with open(ours, "rb") as one, open(theirs, "rb") as other:
        number = 0
        while True:
            number += 1
            here, there = one.readline(), other.readline()
            if here != there:
                told = [it.decode(errors="replace").rstrip("\n") or "no line" for it in (here, there)]
                return f"differs from line {number} on: {told[0]}, and {told[1]}"
            if not here:
                return None


def sheet_apart(numpy, ours, theirs):
    """How two sheets differ, as a sentence; none where they are the same."""
    with compare.opened(ours) as one, compare.opened(theirs) as other:
        if compare.format_of(one) != compare.format_of(other):
            return f"{compare.format_of(one)}, and {compare.format_of(other)}"
        return compare.told(compare.difference(numpy, one, other), one, other) or None


def judged(options, piece):
    """What became of a piece: its name, what is wrong with it, and the seconds that it took."""
    numpy = compare.library("numpy")
    name = os.path.splitext(os.path.basename(piece))[0]
    wrong, begun = {}, time.monotonic()
    with tempfile.TemporaryDirectory() as room:
        paths, why = made(options, piece, room)
        took = time.monotonic() - begun
        for kind, ending in KINDS.items():
            kept = os.path.join(options.kept, f"{name}.{ending}")
            if why:
                wrong["piece"] = why
            elif options.keep:
                with open(paths[kind], "rb") as source, open(kept, "wb") as to:
                    to.write(source.read())
            elif not os.path.exists(kept):
                wrong[kind] = f"no kept {kind}"
            else:
                apart = sheet_apart(numpy, paths[kind], kept) if kind == "sheet" else first_line_apart(paths[kind], kept)
                if apart:
                    wrong[kind] = apart
    return {"piece": name, "wrong": wrong, "seconds": round(took, 3)}


def without_piece(options, names):
    """What is kept of pieces that aren't there any more."""
    kept = {os.path.splitext(it)[0] for it in os.listdir(options.kept) if it.endswith(".wav")}
    return [{"piece": name, "wrong": {"piece": "no piece"}, "seconds": 0} for name in sorted(kept - names)]


def tell_tap(found):
    """Writes what was found as TAP."""
    print(f"TAP version 13\n1..{len(found)}")
    for number, it in enumerate(found, 1):
        print(f"{'not ok' if it['wrong'] else 'ok'} {number} - {it['piece']} # {it['seconds']:.2f} s")
        if it["wrong"]:
            print("  ---")
            for kind, why in it["wrong"].items():
                print(f"  {kind}: {json.dumps(why)}")
            print("  ...")


def write_junit(found, path):
    """Writes what was found as JUnit's XML."""
    failed = sum(bool(it["wrong"]) for it in found)
    suite = ElementTree.Element("testsuite", name="bench", tests=str(len(found)), failures=str(failed))
    for it in found:
        case = ElementTree.SubElement(suite, "testcase", name=it["piece"], time=str(it["seconds"]))
        for kind, why in it["wrong"].items():
            ElementTree.SubElement(case, "failure", message=f"{kind}: {why}")
    ElementTree.ElementTree(suite).write(path, encoding="utf-8", xml_declaration=True)


def summed(options, found):
    """Tells what was found, and gives the status."""
    tell_tap(found)
    if options.junit:
        write_junit(found, options.junit)
    return 1 if any(it["wrong"] for it in found) else 0


def bench(options):
    """Judges all pieces of a folder side by side."""
    pieces = sorted(
        os.path.join(options.pieces, it) for it in os.listdir(options.pieces) if it.endswith(".ck")
    )
    os.makedirs(options.kept, exist_ok=True)
    with ThreadPoolExecutor(options.jobs) as jobs:
        found = list(jobs.map(lambda piece: judged(options, piece), pieces))
    return summed(options, found + without_piece(options, {it["piece"] for it in found}))


def read_lines(path):
    """What jobs of single pieces found, by the names of the pieces."""
    with sys.stdin if path == "-" else open(path, encoding="utf-8") as lines:
        return sorted((json.loads(line) for line in lines if line.strip()), key=lambda it: it["piece"])


def arguments():
    """What the words ask for."""
    options = argparse.ArgumentParser(
        description=__doc__, formatter_class=argparse.RawDescriptionHelpFormatter
    )
    options.add_argument("pieces", nargs="?", metavar="PIECES")
    options.add_argument("kept", nargs="?", metavar="KEPT")
    options.add_argument("--keep", action="store_true", help="keep what comes out now")
    options.add_argument("--piece", metavar="PIECE.ck", help="judge one piece alone, as a line of JSON")
    options.add_argument("--summary", metavar="FILE", help="put the lines of single pieces together")
    options.add_argument("--samples", type=int, default=441_000)
    options.add_argument("--jobs", type=int, default=os.cpu_count())
    options.add_argument("--junit", metavar="FILE")
    options.add_argument("--program", default=os.environ.get("CHUCKFIX", os.path.join(TOP, "chuckfix")))
    found = options.parse_args()
    if found.piece:
        found.kept = found.kept or found.pieces
    if not found.summary and not (found.kept and (found.piece or found.pieces)):
        options.error("it wants PIECES and KEPT")
    return found


def main():
    """Benches, judges one piece, or sums lines up."""
    options = arguments()
    try:
        if options.summary:
            return summed(options, read_lines(options.summary))
        if options.piece:
            found = judged(options, options.piece)
            print(json.dumps(found))
            return 1 if found["wrong"] else 0
        return bench(options)
    except (OSError, ValueError, compare.Trouble) as why:
        print(f"bench: {why}", file=sys.stderr)
        return 2


if __name__ == "__main__":
    sys.exit(main())
