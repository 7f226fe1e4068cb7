#!/usr/bin/python3
"""Makes a page of a piece: what its sheet looks like, how it sounds, when its shreds wake, and what it
prints.

    tools/report.py N FILE [FILE ..] [--out PAGE.html] [--program PROGRAM]

N is the number of samples. The page is one file of HTML with nothing from outside: the waveform of each
channel, a spectrogram, a line for each shred with its wakes and its trap over the same axis of time,
each printed line beside the time of its block of samples or, where that is found quickly, its very
sample, and the numbers of `stats`. Pointing at a picture reads the sample and the second. What is too
fine to be seen is drawn as a band, so a piece of ten minutes with a million wakes opens in seconds.

The status is that of `chuckfix`, and 2 where the page can't be made. It wants numpy (Debian:
python3-numpy)."""

import argparse
import base64
import fcntl
import html
import json
import os
import re
import select
import struct
import subprocess
import sys
import tempfile
import time
import wave
import zlib

import compare

TOP = os.path.dirname(os.path.dirname(os.path.realpath(__file__)))
TRAPPED = 3
BLOCK = 4096
COLUMNS = 1500
FINE = 4 * COLUMNS
BINS = 256
MOST_SHREDS = 120
MOST_LINES = 2000
SECONDS = 5
PIPE_SIZE = 4096
HEADER = 44
TRAP = re.compile(r"trap (\w+) shred (\d+) sample (-?\d+) ")


def rendered(options, room):
    """Renders the piece, and gives the path of its sheet, its lines with the blocks in which they came,
    and the status.

    The sheet goes through a pipe that holds less than a block. So when the first byte of a block has
    come out of it, all text of that block was written, and none of the next."""
    pipe, sheet = os.path.join(room, "pipe"), os.path.join(room, "sheet.wav")
    os.mkfifo(pipe)
    source = os.open(pipe, os.O_RDONLY | os.O_NONBLOCK)
    fcntl.fcntl(source, fcntl.F_SETPIPE_SZ, PIPE_SIZE)
    words = [options.program, "render", str(options.samples), pipe, *options.files]
    process = subprocess.Popen(words, stdout=subprocess.PIPE)
    text = process.stdout.fileno()
    os.set_blocking(text, False)
    pieces, block = [], 0
    with open(sheet, "wb") as out:
        out.write(taken(process, source, HEADER))
        while True:
            first = taken(process, source, 1)
            pieces += [(block, it) for it in drained(text)]
            if not first:
                break
            out.write(first + taken(process, source, 2 * BLOCK - 1))
            block += 1
    os.close(source)
    status = process.wait()
    pieces += [(block, it) for it in drained(text)]
    return sheet, lines_of(pieces), status


def taken(process, source, count):
    """The next so many bytes that come out of a pipe, or what comes before its end."""
    found = b""
    while len(found) < count:
        ended = process.poll() is not None
        try:
            read = os.read(source, count - len(found))
        except BlockingIOError:
            read = b""
        if read:
            found += read
        elif ended:
            break
        else:
            select.select([source], [], [], 0.01)
            time.sleep(0.0002)
    return found


def drained(text):
    """What can be read of a pipe at once."""
    while True:
        try:
            read = os.read(text, 1 << 16)
        except BlockingIOError:
            return
        if not read:
            return
        yield read


def lines_of(pieces):
    """The lines of a text, each with the block in which its end came."""
    found, rest = [], b""
    for block, piece in pieces:
        *whole, rest = (rest + piece).split(b"\n")
        found += [(block, line.decode(errors="replace")) for line in whole]
    return found


def answers(options, *words):
    """What a command of the program writes."""
    command = [options.program, *words, *options.files]
    return subprocess.run(command, stdout=subprocess.PIPE, check=False).stdout


def text_before(options, sample):
    """How many lines are printed before a sample."""
    command = [options.program, "render", str(sample), "/dev/null", *options.files]
    return subprocess.run(command, stdout=subprocess.PIPE, check=False).stdout.count(b"\n")


def timed(options, lines, times):
    """The first and the last sample at which each line may have been printed: the wakes of its block,
    and where there is time for it the very one, which shorter runs tell."""
    until = time.monotonic() + SECONDS
    spans = []
    for number, (block, _) in enumerate(lines):
        inside = [it for it in times.get(block, [])] or [block * BLOCK]
        low, high = 0, len(inside) - 1
        if spans and spans[-1][0] in inside:
            low = inside.index(spans[-1][0])
        while low < high and time.monotonic() < until:
            middle = (low + high) // 2
            if text_before(options, inside[middle] + 1) > number:
                high = middle
            else:
                low = middle + 1
        spans.append((inside[low], inside[high]))
    return spans


def parsed_wakes(numpy, written):
    """The wakes of each shred in order, and the traps by their shreds."""
    traps, rows = {}, []
    for line in written.split(b"\n"):
        if line.startswith(b"trap "):
            told = line.decode(errors="replace")
            match = TRAP.match(told)
            if match:
                traps[int(match[2])] = (int(match[3]), told)
        elif line:
            rows.append(line)
    table = numpy.array([it.split() for it in rows], dtype=numpy.int64).reshape(-1, 2)
    return table, traps


def shred_rows(numpy, table, traps, samples):
    """What the page draws of each shred, and a row for those that are too many."""
    every = max(1, samples)
    numbers = numpy.unique(table[:, 1]) if len(table) else numpy.array([], dtype=numpy.int64)

    def row(name, times, trap):
        columns, counts = numpy.unique(times * COLUMNS // every, return_counts=True)
        told = {"at": trap[0] / every, "line": trap[1]} if trap else None
        return {
            "name": name,
            "first": float(times.min()) / every,
            "last": float(times.max()) / every,
            "columns": columns.tolist(),
            "counts": counts.tolist(),
            "trap": told,
        }

    shown = numbers[:MOST_SHREDS]
    rows = [row(f"shred {n}", table[table[:, 1] == n, 0], traps.get(int(n))) for n in shown]
    if len(numbers) > len(shown):
        others = table[table[:, 1] > shown[-1], 0]
        rows.append(row(f"{len(numbers) - len(shown)} more", others, None))
    return rows


def outlines(numpy, sheet, channel):
    """The least and the greatest of the samples in each column."""
    part = sheet[:, channel]
    many = min(FINE, len(part))
    if not many:
        return [], []
    edges = numpy.linspace(0, len(part), many + 1).astype(numpy.int64)[:-1]
    return numpy.minimum.reduceat(part, edges).tolist(), numpy.maximum.reduceat(part, edges).tolist()


def png(numpy, grey):
    """A picture of these shades as a PNG, dark where there is nothing."""
    table = numpy.zeros((256, 3), dtype=numpy.uint8)
    ramp = numpy.arange(256)
    table[:, 0] = numpy.clip(ramp * 2 - 200, 0, 255)
    table[:, 1] = numpy.clip(ramp * 1.3 - 40, 0, 255)
    table[:, 2] = numpy.clip(60 + ramp * 0.8, 0, 255)
    rows = table[grey]
    raw = b"".join(b"\0" + line.tobytes() for line in rows)

    def chunk(kind, body):
        return struct.pack(">I", len(body)) + kind + body + struct.pack(">I", zlib.crc32(kind + body))

    head = struct.pack(">IIBBBBB", grey.shape[1], grey.shape[0], 8, 2, 0, 0, 0)
    return b"\x89PNG\r\n\x1a\n" + chunk(b"IHDR", head) + chunk(b"IDAT", zlib.compress(raw, 6)) + chunk(b"IEND", b"")


def spectrogram(numpy, sheet):
    """How loud each part of the spectrum is in each column, as a picture; none of a sheet that is too
    short."""
    size = 2 * BINS
    if len(sheet) < size:
        return None
    mono = sheet.mean(axis=1)
    starts = numpy.linspace(0, len(mono) - size, min(COLUMNS, len(mono) // size * 4)).astype(numpy.int64)
    window = numpy.hanning(size)
    shades = numpy.empty((BINS, len(starts)), dtype=numpy.uint8)
    for column, start in enumerate(starts):
        heard = numpy.abs(numpy.fft.rfft(mono[start : start + size] * window))[1 : BINS + 1]
        loud = 20 * numpy.log10(heard / (32768 * size / 4) + 1e-6)
        shades[:, column] = numpy.clip((loud + 100) * 2.55, 0, 255)[::-1]
    return base64.b64encode(png(numpy, shades)).decode()


def sheet_of(numpy, path):
    """The samples of a sheet, a row a frame."""
    with wave.open(path, "rb") as sheet:
        read = numpy.frombuffer(sheet.readframes(sheet.getnframes()), dtype="<i2")
        return read.reshape(-1, sheet.getnchannels()), sheet.getframerate()


def line_rows(lines, spans, rate):
    """The rows of what was printed."""
    head = '<tr><th class="n">sample</th><th class="n">second</th><th>line</th></tr>'
    rows = []
    for (_, line), (first, last) in list(zip(lines, spans))[:MOST_LINES]:
        at = str(first) if first == last else f"{first} to {last}"
        kind = "t trap" if line.startswith("trap ") else "t"
        rows.append(
            f'<tr><td class="n">{at}</td><td class="n">{first / rate:.4f}</td>'
            f'<td class="{kind}">{html.escape(line)}</td></tr>'
        )
    return head + "".join(rows)


def page(options, parts):
    """The page, from its parts by their names."""
    with open(os.path.join(TOP, "tools", "report.html"), encoding="utf-8") as file:
        text = file.read()
    return re.sub(r"@([A-Z]+)@", lambda it: parts.get(it[1], it[0]), text)


def report(options):
    """Renders the piece, writes its page, and gives the program's status."""
    numpy = compare.library("numpy")
    with tempfile.TemporaryDirectory() as room:
        path, lines, status = rendered(options, room)
        if status not in (0, TRAPPED):
            print("report: " + "; ".join(line for _, line in lines), file=sys.stderr)
            return status
        sheet, rate = sheet_of(numpy, path)
    table, traps = parsed_wakes(numpy, answers(options, "wakes", str(options.samples)))
    numbers = answers(options, "stats", str(options.samples)).decode()
    times = {}
    for at in numpy.unique(table[:, 0]).tolist():
        times.setdefault(at // BLOCK, []).append(at)
    spans = timed(options, lines[:MOST_LINES], times)
    data = {
        "rate": rate,
        "samples": options.samples,
        "columns": COLUMNS,
        "channels": [],
        "spectrum": spectrogram(numpy, sheet),
        "shreds": shred_rows(numpy, table, traps, options.samples),
    }
    for channel, name in enumerate(compare.CHANNELS[sheet.shape[1]]):
        low, high = outlines(numpy, sheet, channel)
        data["channels"].append({"name": "Waveform" if name == "mono" else f"Waveform, {name}", "low": low, "high": high})
    peak = int(numpy.abs(sheet.astype(numpy.int32)).max()) if len(sheet) else 0
    clipped = int(numpy.count_nonzero((sheet == 32767) | (sheet == -32768)))
    title = ", ".join(os.path.basename(it) for it in options.files)
    shown = min(len(lines), MOST_LINES)
    parts = {
        "TITLE": html.escape(title),
        "SUMMARY": f"{options.samples} samples, {options.samples / rate:.3f} seconds; the loudest sample is {peak} of 32768, "
        + (f"and {clipped} stand at an end of the range." if clipped else "and none stands at an end of the range."),
        "NYQUIST": str(rate // 2),
        "SHREDS": f"{len(table)} wakes of {len(set(table[:, 1].tolist()))} shreds; each line goes from the first wake to the last, and a red mark is a trap.",
        "PRINTED": f"{len(lines)} lines" + (f", of which the first {shown} stand here." if shown < len(lines) else "."),
        "LINES": line_rows(lines, spans, rate),
        "NUMBERS": "".join(
            "<tr><td>{}</td><td class=n>{}</td></tr>".format(*line.split()) for line in numbers.splitlines()
        ),
        "DATA": json.dumps(data, separators=(",", ":")).replace("</", "<\\/"),
    }
    with open(options.out, "w", encoding="utf-8") as file:
        file.write(page(options, parts))
    return status


def main():
    """Makes the page that the words ask for."""
    options = argparse.ArgumentParser(
        description=__doc__, formatter_class=argparse.RawDescriptionHelpFormatter
    )
    options.add_argument("samples", type=int, metavar="N")
    options.add_argument("files", nargs="+", metavar="FILE")
    options.add_argument("--out", metavar="PAGE.html", help="report.html where none is given")
    options.add_argument("--program", default=os.environ.get("CHUCKFIX", os.path.join(TOP, "chuckfix")))
    options = options.parse_args()
    options.out = options.out or "report.html"
    try:
        return report(options)
    except (OSError, ValueError, wave.Error) as why:
        print(f"report: {why}", file=sys.stderr)
        return 2


if __name__ == "__main__":
    sys.exit(main())
