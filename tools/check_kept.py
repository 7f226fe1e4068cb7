#!/usr/bin/env python3
"""Checks the crate in the folder that it is run in over the libraries that `rt ci` kept on this
machine: `rt check` would prove each crate below it first.

    ../../tools/check_kept.py [--newest] [FLAGS OF THE CHECKER ..]

Of each crate below the library is taken that was kept of the very files that stand in this checkout;
where none was, it says so and stops. With --newest the one kept last is taken there, whatever it was
made of; where these don't fit together, the checker says so. What it checks is kept in out/, so a
check after an edit is short. It is for work on a proof, and counts for nothing: `rt ci` is the gate.
It knows how `rt` names what it keeps, which a later toolchain may do otherwise."""

import glob
import hashlib
import importlib.machinery
import importlib.util
import json
import os
import shutil
import subprocess
import sys

from check_only import KIT, below, crates_in, of_kit

STORE = f"{os.path.dirname(KIT)}/rattle-kept"


def toolchain():
    """The command `rt` as a module, for the names under which it keeps libraries."""
    loader = importlib.machinery.SourceFileLoader("rt_command", f"{KIT}/bin/rt")
    made = importlib.util.module_from_spec(importlib.util.spec_from_loader("rt_command", loader))
    loader.exec_module(made)
    return made


def newest(name):
    """What was kept last of a crate."""
    found = glob.glob(f"{STORE}/proof-{name}-*")
    if not found:
        sys.exit(f"{name}: nothing is kept of it; run rt ci {name} first")
    return max(found, key=os.path.getmtime)


def made_of(kept):
    """The files of a kept library, each with its sum."""
    with open(f"{kept}/made.json", encoding="utf-8") as text:
        return json.load(text)["files"]


class Store:
    """What the toolchain keeps of the crates of a repository, by the files that stand there."""

    def __init__(self, top):
        self.rt = toolchain()
        self.rt.Crate.allowed = self.rt.handles_of(top)
        self.crates = {crate.name: crate for crate in self.rt.crates_of(top)}
        self.own, self.sums, self.found = {}, {}, {}

    def key(self, name):
        """The name under which a library is kept that is made of these files over what was found of
        those below it."""
        crate = self.crates[name]
        if name not in self.own:
            self.own[name] = self.rt.own_sum(crate)
        under = [(it.name, self.sums[it.name]) for it in crate.below()]
        return hashlib.sha256(repr((self.own[name], under)).encode()).hexdigest()

    def take(self, name, kept):
        """Notes what was kept of a crate."""
        files = [(path, total) for path, total in made_of(kept)]
        self.sums[name] = hashlib.sha256(repr(files).encode()).hexdigest()
        self.found[name] = kept

    def look(self, name):
        """Looks for what was kept of a crate, all of whose libraries below were found; whether it was."""
        if name in self.found:
            return True
        if any(it.name not in self.sums for it in self.crates[name].below()):
            return False
        kept = f"{STORE}/proof-{name}-{self.key(name)}"
        if not os.path.isdir(kept):
            return False
        self.take(name, kept)
        return True


def kept_below(top, names, takes_newest):
    """What was kept of each of these crates, lowest first, of the files that stand below a folder."""
    store = Store(top)
    for name in names:
        if store.look(name):
            continue
        if not takes_newest:
            sys.exit(f"{name}: nothing is kept of it as it stands here; run rt ci {name} first")
        store.take(name, newest(name))
    return store.found


def give(file, to):
    """Gives a kept file a second name, or copies it where that can't be: no check changes one."""
    try:
        os.link(file, to)
    except OSError:
        shutil.copyfile(file, to)


def library(name, kept, room):
    """Lays a kept library out below a folder, and gives its path."""
    place = f"{room}/{name}"
    mark = f"{place}/kept"
    if not os.path.exists(mark) or open(mark, encoding="utf-8").read() != kept:
        shutil.rmtree(place, ignore_errors=True)
        for number, (path, _) in enumerate(made_of(kept)):
            to = f"{place}/{path.removeprefix('rlib/')}"
            os.makedirs(os.path.dirname(to), exist_ok=True)
            give(f"{kept}/{number}", to)
        with open(mark, "w", encoding="utf-8") as text:
            text.write(kept)
    return f"{place}/{name}.rlib"


def words(crates, name, kept, room):
    """What the checker has to know of the crate and of those below it."""
    root = "src/main.rt" if os.path.exists("src/main.rt") else "src/lib.rt"
    said = ["--crate-name", name, root, "-L", f"dependency={KIT}/rlibs"]
    for kit in of_kit(crates, name):
        said += ["--extern", f"{kit}={KIT}/rlibs/{kit}.rlib"]
    for base in below(crates, name):
        path = library(base, kept[base], room)
        said += ["-L", f"dependency={os.path.dirname(path)}"]
        if base in crates[name]:
            said += ["--extern", f"{base}={path}"]
    logic = f"{KIT}/rattle/logic/antt-project.json"
    built = ["--logic-built", f"{KIT}/logic_built", "--links", f"{name}="]
    return [*said, "--antt-project", logic, *built]


def main(given):
    """Checks the crate, and gives the checker's status."""
    takes_newest = given[:1] == ["--newest"]
    here = os.getcwd()
    name, top = os.path.basename(here), os.path.dirname(os.path.dirname(here))
    crates = crates_in(top)
    room = f"{here}/out/kept"
    os.makedirs(room, exist_ok=True)
    kept = kept_below(top, below(crates, name), takes_newest)
    said = words(crates, name, kept, room)
    jobs = [] if any(it.startswith("--jobs") for it in given) else ["--jobs", "1"]
    of_work = [*jobs, "--incremental", "out/incremental_kept"]
    flags = given[1:] if takes_newest else given
    return subprocess.run([f"{KIT}/bin/rattle", "check", *said, *of_work, *flags]).returncode


if __name__ == "__main__":
    sys.exit(main(sys.argv[1:]))
