#!/usr/bin/env python3
"""Checks single functions of the crate in the folder that it is run in, over the sources of the
crates below: none of these has to be proved first. `rt check --only` proves them before.

    ../../tools/check_only.py [--jobs N] MODULE::FUNCTION ..

What it checks includes what the functions call, also in the crates below; what passed once is kept
in out/. It is for work on a proof, and counts for nothing: `rt ci` is the gate."""

import os
import shutil
import subprocess
import sys

KIT = os.path.dirname(os.path.dirname(os.path.realpath(shutil.which("rt"))))


def crates_in(top):
    """Each crate of crates.txt, with what it stands on."""
    crates = {}
    with open(f"{top}/crates.txt", encoding="utf-8") as lines:
        for line in lines:
            name, colon, deps = line.split("#")[0].strip().partition(":")
            if colon:
                crates[name.split()[0]] = deps.split()
    return crates


def below(crates, name, found=()):
    """The crates of the repository that one stands on, lowest first."""
    found = list(found)
    for dep in crates[name]:
        if dep in crates and dep not in found:
            found = below(crates, dep, found)
            found.append(dep)
    return found


def of_kit(crates, name):
    """The libraries of the toolchain that a crate stands on."""
    return ["std", *[dep for dep in crates[name] if dep not in crates]]


def words(top, crates, name):
    """What the prover has to know of the crate and of those below it."""
    root = "src/main.rt" if os.path.exists("src/main.rt") else "src/lib.rt"
    libraries = {"core", *of_kit(crates, name)}
    said = ["--crate-name", name, root, "-L", f"dependency={KIT}/rlibs", "--links", f"{name}="]
    for dep in below(crates, name):
        libraries |= {*of_kit(crates, dep)}
        uses = ["core", *of_kit(crates, dep), *[it for it in crates[dep] if it in crates]]
        said += ["--lib", f"{dep}:{','.join(uses)}={top}/crates/{dep}/src/lib.rt"]
    for library in sorted(libraries):
        said += ["--extern", f"{library}={KIT}/rlibs/{library}.rlib"]
    logic = f"{KIT}/rattle/logic/antt-project.json"
    return [*said, "--antt-project", logic, "--logic-built", f"{KIT}/logic_built"]


def main(given):
    jobs = "1"
    if given[:1] == ["--jobs"] and len(given) > 1:
        jobs, given = given[1], given[2:]
    if not given:
        print(__doc__)
        return 1
    here = os.getcwd()
    top = os.path.dirname(os.path.dirname(here))
    command = [f"{KIT}/bin/rattle", "check", *words(top, crates_in(top), os.path.basename(here))]
    for function in given:
        command += ["--only", function]
    os.makedirs("out", exist_ok=True)
    command += ["--jobs", jobs, "--allow-holes", "--incremental", "out/incremental_only"]
    return subprocess.run(command).returncode


if __name__ == "__main__":
    sys.exit(main(sys.argv[1:]))
