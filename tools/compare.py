#!/usr/bin/python3
"""Compares two WAV files sample by sample, or those of the same names in two folders.

    tools/compare.py A.wav B.wav [--picture PICTURE.png]
    tools/compare.py FOLDER FOLDER [--picture FOLDER]

Of each pair it says that they are the same, or the first sample and channel at which they differ with
both values, how many samples differ, and the greatest difference with its place. Samples count from 0.
With --picture both waveforms around the first difference are drawn. The files are 16-bit PCM, of one
channel or two.

The status is 0 where all are the same, 1 where some differ or have no partner, and 2 where a file
can't be read, as that of cmp. It wants numpy, and matplotlib for pictures (Debian: python3-numpy,
python3-matplotlib)."""

import argparse
import os
import sys
import wave
from dataclasses import dataclass
from typing import Optional

PIECE = 1 << 20
AROUND = 200
CHANNELS = {1: ["mono"], 2: ["left", "right"]}


class Trouble(Exception):
    """Why a file can't be compared."""


@dataclass
class Difference:
    """How two sheets of one format differ."""

    frame: int
    channel: str
    ours: int
    theirs: int
    count: int
    greatest: int
    greatest_at: int
    compared: int


def library(name):
    """A library of the distribution; without it the script ends."""
    try:
        return __import__(name)
    except ImportError:
        print(f"{os.path.basename(sys.argv[0])}: it wants {name} (Debian: python3-{name})", file=sys.stderr)
        sys.exit(2)


def opened(path):
    """A WAV file, open for reading."""
    try:
        sheet = wave.open(path, "rb")
    except (OSError, EOFError, wave.Error) as why:
        raise Trouble(f"{path}: {why or 'no WAV file'}") from why
    if sheet.getsampwidth() != 2 or sheet.getnchannels() not in CHANNELS:
        raise Trouble(f"{path}: not 16-bit PCM of one channel or two")
    return sheet


def frames(numpy, sheet, count):
    """The next frames of a sheet: a row for each, with a number for each channel."""
    read = numpy.frombuffer(sheet.readframes(count), dtype="<i2")
    return read.reshape(-1, sheet.getnchannels()).astype(numpy.int32)


def format_of(sheet):
    """What has to be equal for two sheets to be compared at all."""
    return f"{sheet.getnchannels()} channels at {sheet.getframerate()}"


def difference(numpy, ours, theirs) -> Optional[Difference]:
    """How two sheets of one format differ, as far as both go."""
    found, at, both = None, 0, min(ours.getnframes(), theirs.getnframes())
    names = CHANNELS[ours.getnchannels()]
    while at < both:
        one, other = (frames(numpy, it, min(PIECE, both - at)) for it in (ours, theirs))
        apart = numpy.abs(one - other)
        if apart.any():
            if not found:
                row, column = numpy.argwhere(apart)[0]
                found = Difference(
                    at + int(row), names[column], int(one[row, column]), int(other[row, column]), 0, 0, 0, both
                )
            found.count += int(numpy.count_nonzero(apart))
            most = int(apart.max())
            if most > found.greatest:
                found.greatest, found.greatest_at = most, at + int(apart.max(axis=1).argmax())
        at += len(one)
    return found


def told(found, ours, theirs):
    """The line on two sheets of one format; none where they are the same."""
    parts = []
    if found:
        channel = "" if found.channel == "mono" else f" {found.channel}"
        parts.append(
            f"differs from sample {found.frame}{channel} on: {found.ours} and {found.theirs}; "
            f"{found.count} of {found.compared * ours.getnchannels()} differ, "
            f"by {found.greatest} at most, at sample {found.greatest_at}"
        )
    if ours.getnframes() != theirs.getnframes():
        parts.append(f"has {ours.getnframes()} samples and {theirs.getnframes()}")
    return "; ".join(parts)


def draw(numpy, paths, frame, picture):
    """Draws both sheets around a frame."""
    matplotlib = library("matplotlib")
    matplotlib.use("Agg")
    from matplotlib import pyplot

    start = max(0, frame - AROUND)
    figure, axis = pyplot.subplots(figsize=(10, 4))
    for path, style in zip(paths, ("-", "--")):
        with opened(path) as sheet:
            sheet.setpos(min(start, sheet.getnframes()))
            part = frames(numpy, sheet, 2 * AROUND)
        for column, name in enumerate(CHANNELS[part.shape[1]]):
            axis.plot(numpy.arange(start, start + len(part)), part[:, column], style, label=f"{path} {name}")
    axis.axvline(frame, color="gray", linewidth=0.5)
    axis.set_xlabel("sample")
    axis.legend(loc="upper right", fontsize="small")
    figure.savefig(picture, dpi=100, bbox_inches="tight")
    pyplot.close(figure)


def compare(numpy, name, paths, picture):
    """Compares two files, says how they differ, and gives the status."""
    try:
        with opened(paths[0]) as ours, opened(paths[1]) as theirs:
            if format_of(ours) != format_of(theirs):
                print(f"{name}: {format_of(ours)}, and {format_of(theirs)}")
                return 1
            found = difference(numpy, ours, theirs)
            line = told(found, ours, theirs)
            if not line:
                print(f"{name}: the same, {ours.getnframes()} samples")
                return 0
            end = min(ours.getnframes(), theirs.getnframes())
    except Trouble as why:
        print(f"compare: {why}", file=sys.stderr)
        return 2
    print(f"{name}: {line}")
    if picture:
        draw(numpy, paths, found.frame if found else end, picture)
    return 1


def compare_folders(numpy, folders, pictures):
    """Compares the sheets of one name in two folders, and gives the status."""
    here, there = ({it for it in os.listdir(folder) if it.endswith(".wav")} for folder in folders)
    worst = 0
    for name in sorted(here | there):
        if name not in here or name not in there:
            print(f"{name}: only in {folders[0] if name in here else folders[1]}")
            worst = max(worst, 1)
            continue
        picture = os.path.join(pictures, f"{name[:-4]}.png") if pictures else None
        worst = max(worst, compare(numpy, name, [os.path.join(it, name) for it in folders], picture))
    return worst


def main():
    """Compares what the words name."""
    options = argparse.ArgumentParser(
        description=__doc__, formatter_class=argparse.RawDescriptionHelpFormatter
    )
    options.add_argument("paths", nargs=2, metavar="PATH")
    options.add_argument("--picture", help="a file for the picture, or a folder for pictures")
    options = options.parse_args()
    numpy = library("numpy")
    folders = [os.path.isdir(it) for it in options.paths]
    if all(folders):
        if options.picture:
            os.makedirs(options.picture, exist_ok=True)
        return compare_folders(numpy, options.paths, options.picture)
    if any(folders):
        options.paths = [
            os.path.join(it, os.path.basename(options.paths[not which])) if folders[which] else it
            for which, it in enumerate(options.paths)
        ]
    return compare(numpy, options.paths[0], options.paths, options.picture)


if __name__ == "__main__":
    sys.exit(main())
