#!/usr/bin/env python3
"""Lists what took most of the time of a crate's last check: tools/slow.py CRATE [HOW_MANY].

The checker saves each module as it ends with it, below the crate's out/incremental, so the time
between two saved modules is what the later one took. It is right of a check from nothing by one
process: rm -r crates/CRATE/out, and then rt check --jobs 1 in the crate's folder. Of a function,
`Lts` is its steps with all that it borrows and drops: long where a large value lives across a `?`,
or where the function has many of them. `Proof` is the search for its proofs: long where a goal is
found late, which an answer cures. A row with the crate's bare name is the reading of what lies
below it."""

import os
import sys

TOP = os.path.dirname(os.path.dirname(os.path.realpath(__file__)))


def saved(crate):
    """The modules of a crate with when each was saved, the first one first."""
    times = []
    for folder, _, files in os.walk(f"{TOP}/crates/{crate}/out/incremental"):
        if "/records" not in folder:
            for file in files:
                if file.endswith(".oantt"):
                    module = file.removesuffix(".oantt").removeprefix("Rattle-")
                    times.append((os.stat(f"{folder}/{file}").st_mtime, module))
    return sorted(times)


def main():
    """Prints the slowest modules, and how long all of them took."""
    if len(sys.argv) < 2:
        sys.exit(__doc__)
    times = saved(sys.argv[1])
    if not times:
        sys.exit(f"{sys.argv[1]}: nothing is kept of a check; run rt check there first")
    rows = [(now[0] - before[0], now[1]) for before, now in zip(times, times[1:])]
    for seconds, module in sorted(rows, reverse=True)[: int((sys.argv[2:] or ["20"])[0])]:
        print(f"{seconds:7.1f} s  {module}")
    print(f"{times[-1][0] - times[0][0]:7.1f} s  in all, {len(times)} modules")


if __name__ == "__main__":
    main()
