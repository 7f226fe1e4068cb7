#!/usr/bin/env python3
"""Writes texts that are meant to cost much, each with up to 1 MiB in all its files, and times
`chuckfix check` on each: the processor time, and the largest memory that it had.

    tools/hostile.py PROGRAM [NAME ..] [--folder FOLDER] [--memory MIB] [--seconds N]

PROGRAM is the built program, as crates/chuckfix/out/chuckfix. The texts are left in the FOLDER,
where one is given. A run has so many MiB and seconds of the processor at most, 4096 and 120 where
they aren't given. The columns are the name, the bytes, the files, the status, the seconds of the
processor and the MiB. A status of 2 is a refusal, which `circle` alone is to get; a negative one is
a signal, as where the seconds are over. No proof speaks of time or memory, and this is no part of
the gate."""

import argparse
import os
import resource
import subprocess
import tempfile

SIZE = 1_048_576
# A class has at most 128 ancestors, with Object; this many may stand below one another, and the
# largest class below them.
CHAIN = 127
DEPTH = 120
LETTERS = "ABCDEFGHIJKLMNOPQRSTUVWXYZabcdefghijklmnopqrstuvwxyz"
OTHERS = LETTERS + "0123456789_"
# Short words that have a meaning already, or are names of every program.
TAKEN = set(
    "if do me ms fun now int dur day dac for new else null NULL true false this time void samp "
    "hour week while until break class float spork repeat return static string public "
    "second minute auto Std Math ADSR Echo Gain Step Event UGen Delay Noise Shred Big Low".split()
)


def names(letters=LETTERS):
    """All names in the order of their length."""
    stems = list(letters)
    while True:
        for stem in stems:
            if stem not in TAKEN:
                yield stem
        stems = [stem + letter for stem in stems for letter in OTHERS]


def filled(parts, before="", after="", size=SIZE):
    """As many of the parts as there is room for, between two texts."""
    taken, room = [], size - len(before) - len(after)
    for part in parts:
        room -= len(part)
        if room < 0:
            break
        taken.append(part)
    return before + "".join(taken) + after


def chain(body=lambda k: "", many=CHAIN):
    """Classes Chain0, Chain1 .. of which each extends the one before, and the lowest of them."""
    text = "".join(
        f"class Chain{k}{f' extends Chain{k - 1}' if k else ''}{{{body(k)}}}\n" for k in range(many)
    )
    return text, f"Chain{many - 1}"


def fields(before, after):
    """One class with as many fields as there is room for."""
    return filled((f",{name}" for name in names()), before + "int _0", ";}\n" + after)


def fields_last():
    """The largest class comes behind those that it stands below."""
    above, bottom = chain()
    return [fields(f"{above}class Big extends {bottom}{{", "")]


def fields_first():
    """It comes before them."""
    above, bottom = chain()
    return [fields(f"class Big extends {bottom}{{", above)]


def fields_on_top():
    """It stands above all others, and comes last."""
    below = chain()[0].replace("class Chain0{", "class Chain0 extends Big{")
    return [fields(below + "class Big{", "")]


def fields_between():
    """Each class of a chain has as many fields as the others, and the lowest comes first."""
    found = names()
    part = SIZE // CHAIN - 30
    bodies = [fields_of(found, part) for _ in range(CHAIN)]
    lines = chain(lambda k: bodies[k])[0].splitlines(True)
    return ["".join(reversed(lines))]


def fields_of(found, size):
    """Fields with the next names."""
    return filled((f",{next(found)}" for _ in range(size)), "int " + next(found), ";", size)


def one_name():
    """Many classes have a member of one name, and each has a class below it."""
    parts = (
        f"class {name}{{int x;}}class {name}_ extends {name}{{}}\n" for name in long_names()
    )
    return [filled(parts)]


def long_names():
    """Names of at least three letters, of which none ends with a line."""
    return (name for name in names() if len(name) > 2 and name[-1] != "_")


def own_names():
    """Many classes have a member of their own name each."""
    return [filled(f"class {name}{{int _{name};}}\n" for name in long_names())]


def families(depth=64, many=100, below=100):
    """Below a chain stand classes with the same names of members, each above many classes, which
    come first."""
    above, bottom = chain(many=depth)
    heirs = "".join(f"class F{k}_{i} extends F{k}{{}}\n" for k in range(many) for i in range(below))
    room = (SIZE - len(above) - len(heirs)) // many - 30
    body = fields_of(names(), room)
    heads = "".join(f"class F{k} extends {bottom}{{{body}}}\n" for k in range(many))
    return [heirs + above + heads]


def heirs(body):
    """Half of the text is one class, and the other half are classes below it."""
    above = filled(body, "class Big{", "}\n", SIZE // 2)
    return [filled((f"class {name} extends Big{{}}\n" for name in long_names()), above)]


def heirs_of_fields():
    """Many classes stand below one with many fields."""
    return heirs(f"int {name};" for name in names())


def heirs_of_functions():
    """Many classes stand below one with many functions."""
    return heirs(f"fun void {name}(){{}}" for name in names())


def circle():
    """Two classes extend each other, and all others stand below them."""
    text = "class A extends B{}class B extends A{}\n"
    return [filled((f"class {name} extends A{{}}\n" for name in long_names()), text)]


def overrides():
    """Each class of a chain overrides all functions of the one above."""
    body = filled((f"fun void {name}(){{}}" for name in names()), size=SIZE // CHAIN - 30)
    return [chain(lambda k: body)[0]]


def overrides_upwards():
    """The lowest class of such a chain comes first."""
    return ["".join(reversed(overrides()[0].splitlines(True)))]


def small_classes():
    """As many classes as there is room for, with nothing in them."""
    return [filled(f"class {name}{{}}\n" for name in long_names())]


def deep_classes():
    """As many classes as there is room for, each with 127 above it."""
    above, bottom = chain()
    return [filled((f"class {name} extends {bottom}{{}}\n" for name in long_names()), above)]


def everything():
    """One class with fields, static members, functions and statements."""
    parts = (
        f"int {name};static int {name}s;fun int {name}f(int a){{return a+{name};}}"
        f"{name}+1=>{name};\n"
        for name in long_names()
    )
    return [filled(parts, "class A{", "}\nA a;\n")]


def variables():
    """As many file variables as there is room for."""
    return [filled((f",{name}" for name in names()), "int _0", ";\n")]


def locals_of_one():
    """As many locals of one function as there is room for."""
    return [filled((f",{name}" for name in names()), "fun void f(){int _0", ";}\n")]


def functions():
    """As many functions as there is room for, which call each other."""
    many = SIZE // 24
    found = [name for name, _ in zip(long_names(), range(many))]
    return [filled(f"fun void {a}(){{{b}();}}\n" for a, b in zip(found, reversed(found)))]


def autos():
    """As many file variables with `auto` as there is room for."""
    return [filled(f"1=>auto {name};" for name in names())]


def autos_of_one():
    """As many locals with `auto` of one function as there is room for."""
    return [filled((f"1=>auto {name};" for name in names()), "fun void f(){", "}\n")]


def constructions():
    """The lowest class of a chain, of which the highest has the constructor, as often as there is
    room for it."""
    above, bottom = chain(lambda k: "" if k else "fun @construct(int n){}")
    return [filled((f"{bottom} {name}(1);" for name in names()), above)]


def arguments_of_one():
    """A constructor with as many parameters as there is room for, and their arguments."""
    parts = filled((f",int {name}" for name in names()), size=SIZE * 3 // 4)
    head = "class Big{fun @construct(int _0" + parts + "){}}\nBig _1(1"
    return [head + ",1" * parts.count(",") + ");\n"]


def items():
    """As many `for` over an array as there is room for."""
    return [lines("int a[1];\n", "for(int x:a);")]


def items_in_items():
    """The same in one another, as deep as they may be."""
    return [lines("int a[1];\n", "for(int x:a)" * DEPTH + ";\n")]


def choices():
    """Choices in one another, as deep as they may be."""
    return [lines("int x;\n", "x?1:" * DEPTH + "2=>x;\n")]


def else_ifs():
    """Alternatives in one another, as deep as they may be."""
    return [lines("int x;\n", "if(x)x;else " * DEPTH + "x;\n")]


def lines(before, line):
    """One line as often as there is room for it."""
    return before + line * ((SIZE - len(before)) // len(line))


def many_files(files=64):
    """As many files as there may be. The public class of each extends that of the one before, and
    many of its file stand below it."""
    texts = []
    for k in range(files):
        above = f" extends Public{k - 1}" if k else ""
        parts = (f"class {name} extends Public{k}{{}}\n" for name in long_names())
        head = f"public class Public{k}{above}{{int p{k};}}\n"
        texts.append(filled(parts, head, size=SIZE // files))
    return texts


def fields_of_files(files=64):
    """The public class of each file has many fields, and extends that of the one before."""
    found, texts = names(), []
    for k in range(files):
        above = f" extends Public{k - 1}" if k else ""
        room = SIZE // files - 60
        texts.append(f"public class Public{k}{above}{{{fields_of(found, room)}}}\n")
    return texts


def named_below(members, part, before=""):
    """The lowest class of a chain, whose classes have these members, names one again and again."""
    above, bottom = chain(members)
    return [lines_in(f"{before}{above}class Low extends {bottom}{{fun void f(){{", part, "}}\n")]


def looked_up():
    """The lowest class of a chain names a field of the highest one."""
    return named_below(lambda k: f"int x{k};", "x0;")


def called():
    """It calls a function of the highest one, which others override."""
    return named_below(lambda k: f"int x{k};fun void g(){{}}", "g();")


def not_there():
    """It names a file variable, which is sought in all classes of the chain first."""
    return named_below(lambda k: f"int x{k};", "y;", "int y;")


def of_objects():
    """The field of a chain's highest class is named by objects of the lowest one."""
    above, bottom = chain(lambda k: f"int x{k};")
    return [lines_in(f"{above}{bottom} c;", "c.x0;", "")]


def lines_in(before, part, after):
    """One part as often as there is room for it between two texts."""
    return before + part * ((SIZE - len(before) - len(after)) // len(part)) + after


TEXTS = [
    fields_last,
    fields_first,
    fields_on_top,
    fields_between,
    one_name,
    own_names,
    families,
    heirs_of_fields,
    heirs_of_functions,
    circle,
    overrides,
    overrides_upwards,
    small_classes,
    deep_classes,
    everything,
    variables,
    locals_of_one,
    functions,
    autos,
    autos_of_one,
    constructions,
    arguments_of_one,
    items,
    items_in_items,
    choices,
    else_ifs,
    many_files,
    fields_of_files,
    looked_up,
    called,
    not_there,
    of_objects,
]


def written(folder, text):
    """Writes the files of a text, and gives their paths."""
    paths = []
    for number, content in enumerate(text()):
        paths.append(os.path.join(folder, f"{text.__name__}_{number}.ck"))
        with open(paths[-1], "w", encoding="ascii") as out:
            out.write(content)
    return paths


def measured(options, paths):
    """Checks the files, and gives the status, the seconds and the bytes of memory."""
    words = [os.path.abspath(options.program), "check", *paths]
    memory = options.memory * 2**20

    def bounded():
        resource.setrlimit(resource.RLIMIT_AS, (memory, memory))
        resource.setrlimit(resource.RLIMIT_CPU, (options.seconds, options.seconds))

    quiet = {"stdout": subprocess.DEVNULL, "stderr": subprocess.DEVNULL}
    with subprocess.Popen(words, preexec_fn=bounded, **quiet) as child:
        _, status, used = os.wait4(child.pid, 0)
        child.returncode = os.waitstatus_to_exitcode(status)
    return child.returncode, used.ru_utime + used.ru_stime, used.ru_maxrss * 1024


def tell(options, folder, text):
    """One line of the table."""
    paths = written(folder, text)
    size = sum(os.path.getsize(path) for path in paths)
    status, seconds, memory = measured(options, paths)
    told = [f"{text.__name__:18}", f"{size:9,}", f"{len(paths):5}", f"{status:6}"]
    print(*told, f"{seconds:8.2f}", f"{memory / 2**20:8.0f}", flush=True)


def main():
    known = {text.__name__: text for text in TEXTS}
    layout = argparse.RawDescriptionHelpFormatter
    options = argparse.ArgumentParser(description=__doc__, formatter_class=layout)
    options.add_argument("program", metavar="PROGRAM")
    options.add_argument("names", nargs="*", metavar="NAME", help=" ".join(known))
    options.add_argument("--folder")
    options.add_argument("--memory", type=int, default=4096)
    options.add_argument("--seconds", type=int, default=120)
    options = options.parse_args()
    print(f"{'name':18} {'bytes':>9} {'files':>5} {'status':>6} {'seconds':>8} {'MiB':>8}")
    with tempfile.TemporaryDirectory() as room:
        folder = options.folder or room
        os.makedirs(folder, exist_ok=True)
        for name in options.names or known:
            tell(options, folder, known[name])


if __name__ == "__main__":
    main()
