#!/usr/bin/env python3
"""Runs the program that the gate has built over the highest texts that it accepts, with a small
stack: each form of an expression in each place where one may stand, each form of a statement, the
longest chains of classes, and the highest trees, some of texts that it refuses. A text that ends
the program by a signal is named, with what it needs, and fails the script.

    tools/stack.py [KIB]      KIB is the stack in KiB, 3072 where it isn't given

How high a text may be is asked of the program itself, with a stack that is large enough. No proof
speaks of the stack, and this is no part of the gate."""

import os
import resource
import subprocess
import sys
import tempfile
from concurrent.futures import ThreadPoolExecutor

TOP = os.path.dirname(os.path.dirname(os.path.realpath(__file__)))
PROGRAM = os.path.join(TOP, "crates", "chuckfix", "out", "chuckfix")
LARGE = 262_144
HIGHEST = 300
SECONDS = 60
COMMANDS = [["check"], ["wakes", "2"], ["render", "2", "sheet.wav"], ["stats", "2"], ["code"]]

# What the forms below name.
AROUND = """class C {
    int n; C @ next; static C @ one;
    fun C itself() { return this; }
    fun static C other() { return null; }
    fun int same(int x) { return x; }
    fun static int plain(int x) { return x; }
}
class P { int n; fun @construct(int x) { x => n; } }
int a[300]; int x; float z; C c; c @=> c.next; Gain u;
fun int f(int x) { return x; }
fun int floor(float x) { return x $ int; }
"""


def nested(before, inner, after):
    """A form with so many parts in one another."""
    return lambda height: before * height + inner + after * height


def in_turn(openings, inner, closing):
    """The same, whose parts begin in turn in each of these ways."""
    return lambda height: (
        "".join(openings[i % len(openings)] for i in range(height)) + inner + closing * height
    )


def triangle(opening, inner, closing, part, depth=1):
    """Brackets in one another, and behind each as many parts of this depth as it has brackets
    within: once it is closed the depth is again what it was, so this tree is the highest."""
    return lambda height: (
        opening * height
        + inner
        + "".join(
            closing + "".join(part.format(height * i + k) for k in range(i // depth))
            for i in range(height)
        )
    )


# Each is an int; the height is how many of its parts stand in one another.
FORMS = {
    "parentheses": nested("(", "1", ")"),
    "negations": nested("- ", "1", ""),
    "nots": nested("!", "1", ""),
    "sums": nested("", "1", " + 1"),
    "sums in sums": nested("1 + (", "1", ")"),
    "products": nested("", "1", " * 1"),
    "comparisons": nested("", "1", " < 2"),
    "equalities": nested("", "1", " == 1"),
    "shifts": nested("", "1", " << 0"),
    "bits": nested("", "1", " & 1 | 1 ^ 1"),
    "ands": nested("", "1", " && 1"),
    "ors": nested("", "0", " || 0"),
    "ands in ors": nested("0 || (1 && (", "1", "))"),
    "operators of all levels": in_turn(
        [f"1 {o} (" for o in "|| && | ^ & == < << + *".split()], "1", ")"
    ),
    "choices in the test": nested("(", "1", " ? 1 : 0)"),
    "choices before the colon": nested("1 ? ", "1", " : 1"),
    "choices behind the colon": nested("0 ? 1 : ", "1", ""),
    "calls": nested("f(", "1", ")"),
    "calls of a member": nested("c.same(", "1", ")"),
    "calls of a static member": nested("C.plain(", "1", ")"),
    "built-in calls": nested("Std.abs(", "1", ")"),
    "calls in a row": lambda height: "c" + ".itself()" * height + ".n",
    "members": lambda height: "c" + ".next" * height + ".n",
    "indices": nested("a[", "1", "]"),
    "lists": nested("[", "1", "][0]"),
    "casts": nested("", "1", " $ int"),
    "assignments in a row": nested("", "1", " => x"),
    "assignments in parentheses": nested("(", "1", " => x)"),
    "assignments in targets": nested("1 => a[", "1", "]"),
    "updates in a row": nested("", "1", " +=> x"),
    "chucks to a function": nested("", "1", " => f"),
    "chucks to a member": nested("", "1", " => c.same"),
    "declarations": lambda height: "(" * height
    + "1"
    + "".join(f" => int v{i})" for i in range(height)),
    "durs": lambda height: "(" + "1::(" * height + "samp" + ")" * height + " / samp) $ int",
    "strings": lambda height: '("a"' + ' + "b"' * height + ").length()",
    "appends": lambda height: "(a" + " << 1" * height + ").size()",
    "new arrays": nested("(new int[", "1", "]).size()"),
    "new objects with arguments": nested("(new P(", "1", ")).n"),
    "declarations with arguments": lambda height: "".join(f"(P v{i}(" for i in range(height))
    + "1"
    + ")).n" * height,
    "sporks": nested("(spork ~ f(", "1", ")).id()"),
}

# Their height is how many brackets stand in one another; some are no ints.
TRIANGLES = {
    "sums": triangle("(", "1", ")", " + 1"),
    "products": triangle("(", "1", ")", " * 1"),
    "comparisons": triangle("(", "1", ")", " < 2"),
    "comparisons with a float": triangle("(", "1", ")", " < 2.0"),
    "equalities": triangle("(", "1", ")", " == 1"),
    "equalities with a float": triangle("(", "1", ")", " != 1.0"),
    "shifts": triangle("(", "1", ")", " << 0"),
    "bits": triangle("(", "1", ")", " & 1"),
    "ands": triangle("(", "1", ")", " && 1"),
    "ors": triangle("(", "0", ")", " || 0"),
    "sums of strings": triangle("(", '"a"', ")", ' + "b"'),
    "sums of a string and ints": triangle("(", '"a"', ")", " + 1"),
    "sums of durs": triangle("(", "1::samp", ")", " + samp"),
    "appends": triangle("(", "a", ")", " << 1"),
    "casts": triangle("(", "1", ")", " $ int"),
    "casts there and back": triangle("(", "1", ")", " $ float $ int", 2),
    "members": triangle("(", "c", ")", ".next"),
    "calls in a row": triangle("(", "c", ")", ".itself()", 2),
    "static members": triangle("(", "c", ")", ".one"),
    "static calls in a row": triangle("(", "c", ")", ".other()", 2),
    "assignments": triangle("(", "1", ")", " => x"),
    "assignments to a float": triangle("(", "1.0", ")", " => z"),
    "assignments to a member": triangle("(", "1", ")", " => c.n", 2),
    "assignments to an item": triangle("(", "1", ")", " => a[0]", 2),
    "assignments of references": triangle("(", "c", ")", " @=> c.next", 2),
    "declarations": triangle("(", "1", ")", " => int v{}"),
    "declarations of objects": triangle("(", "c", ")", " @=> C v{}"),
    "declarations with auto": triangle("(", "1", ")", " => auto v{}"),
    "declarations of objects with auto": triangle("(", "c", ")", " @=> auto v{}"),
    "updates": triangle("(", "1", ")", " +=> x"),
    "updates of a member": triangle("(", "1", ")", " +=> c.n", 2),
    "chucks to a function": triangle("(", "1", ")", " => f"),
    "chucks to a function of a float": triangle("(", "1", ")", " => floor"),
    "chucks to a member": triangle("(", "1", ")", " => c.same", 2),
    "chucks to a static member": triangle("(", "1", ")", " => c.plain", 2),
    "chucks to a built-in call": triangle("(", "1", ")", " => Std.abs", 2),
    "chucks to a parameter": triangle("(", "1", ")", " => u.gain", 2),
    "connections": triangle("(", "u", ")", " => u"),
    "disconnections": triangle("(", "u", ")", " =< u"),
    "waits": triangle("(", "samp", ")", " => now"),
    "choices": triangle("1 ? ", "1", " : 1", " => x"),
    "calls": triangle("f(", "1", ")", " + 1"),
    "new objects with arguments": triangle("(new P(", "1", ")).n", " + 1"),
    "indices": triangle("a[", "1", "]", " + 1"),
    "lists": triangle("[", "1", "][0]", " + 1"),
}

# The same, whose types don't fit: the fault is at the innermost.
REFUSED_TRIANGLES = {
    "calls of a number": triangle("(", "1", ")", "(1)"),
    "calls of an item": triangle("(", "1", ")", "(1)[0]", 2),
    "items": triangle("(", "1", ")", "[0]"),
    "members of a number": triangle("(", "1", ")", ".n"),
    "steps": triangle("(", "x", ")", "++"),
    "durs": triangle("(", "c", ")", "::samp"),
    "sums of objects": triangle("(", "c", ")", " + c"),
    "casts of an object": triangle("(", "c", ")", " $ int"),
    "assignments to a number": triangle("(", "1", ")", " => 1"),
}

# What stands around an int.
PLACES = {
    "statement": "{};",
    "print": "<<< {} >>>;",
    "later item of a print": "<<< 1, {} >>>;",
    "value of a declaration": "{} => int y;",
    "value of an assignment": "{} => x;",
    "value of an update": "{} +=> x;",
    "index of a target": "1 => a[{}];",
    "index of a step": "a[{}]++;",
    "size": "int b[{}];",
    "size in a list": "int b[{}], d[1];",
    "test of an if": "if ({}) x;",
    "test of an if with else": "if ({}) x; else x;",
    "test of a while": "while ({}) break;",
    "test of an until": "until ({}) break;",
    "test of a do while": "do break; while ({});",
    "test of a do until": "do break; until ({});",
    "start of a for": "for ({}; 0; ) x;",
    "test of a for": "for (; {}; ) break;",
    "step of a for": "for (0 => int i; i < 1; {}) i++;",
    "number of a repeat": "repeat ({}) break;",
    "result": "fun int g() {{ return {}; }} g();",
    "argument": "f({});",
    "argument of a member": "c.same({});",
    "argument of a built-in call": "Std.abs({});",
    "argument of a spork": "spork ~ f({});",
    "what is chucked to a function": "{} => f;",
    "what is chucked to a parameter": "Gain g; {} => g.gain;",
    "wait": "({})::samp => now;",
    "size of a new array": "new int[{}] @=> int b[];",
    "item of a list": "[1, {}] @=> int b[];",
    "array of a for": "for (int y : [1, {}]) y;",
    "argument of a declaration": "P p({});",
    "argument of new": "new P({});",
    "body of a constructor": "class D {{ fun @construct() {{ {}; }} }} D d;",
    "part of a string": '"a" + ({});',
    "field": "class D {{ {} => int y; }} D d;",
    "size of a field": "class D {{ int y[{}]; }} D d;",
    "result of a member": "class D {{ fun int g() {{ return {}; }} }} D d; d.g();",
}

# Statements in one another, around a last one.
STATEMENTS = {
    "blocks": ("{", "}"),
    "ifs": ("if (1) ", ""),
    "else-ifs": ("if (0) ; else ", ""),
    "ifs before an else": ("if (1) ", " else ;"),
    "whiles": ("while (0) ", ""),
    "untils": ("until (1) ", ""),
    "do whiles": ("do ", " while (0);"),
    "do untils": ("do ", " until (1);"),
    "fors": ("for (; 0; ) ", ""),
    "fors with a declaration": ("for (0 => int i; i < 1; i++) ", ""),
    "fors over an array": ("for (int y : a) ", ""),
    "repeats": ("repeat (1) ", ""),
}


def chain(height, is_reversed):
    """Classes of which each extends the next one, each with a field and an override."""
    classes = [
        "class K%d%s { int n%d; fun int g(int y) { return y; } }"
        % (i, f" extends K{i - 1}" if i else "", i)
        for i in range(height)
    ]
    if is_reversed:
        classes.reverse()
    return "\n".join(classes) + f"\nK{height - 1} k; k.g(k.n0);\n"


def texts():
    """The name of each text, and the text of a height."""
    for form, expression in FORMS.items():
        for place, around in PLACES.items():
            yield f"{form}: {place}", lambda h, e=expression, p=around: AROUND + p.format(e(h))
    for name, (before, after) in STATEMENTS.items():
        yield name, lambda h, b=before, a=after: AROUND + b * h + "x;" + a * h
        yield f"{name} in a function", lambda h, b=before, a=after: (
            AROUND + "fun void g() {" + b * h + "x;" + a * h + "} g();"
        )
        for form, expression in FORMS.items():
            yield f"{form}: 64 {name}", lambda h, b=before, a=after, e=expression: (
                AROUND + b * 64 + e(h) + ";" + a * 64
            )
    yield "classes, ancestors first", lambda h: chain(h, False)
    yield "classes, ancestors last", lambda h: chain(h, True)


def trees():
    """The same of the highest trees, each with the status of `check`: each form as a statement, also
    where a fault of syntax comes behind it, and one of them in each place."""
    for form, expression in TRIANGLES.items():
        yield f"triangle of {form}", lambda h, e=expression: AROUND + e(h) + ";", 0
        for end in (" => ;", ")", ";)"):
            yield f"triangle of {form} before {end}", lambda h, e=expression, f=end: (
                AROUND + e(h) + f
            ), 2
    for form, expression in REFUSED_TRIANGLES.items():
        yield f"triangle of {form}", lambda h, e=expression: AROUND + e(h) + ";", 2
    for place, around in PLACES.items():
        yield f"triangle of sums: {place}", lambda h, p=around: (
            AROUND + p.format(TRIANGLES["sums"](h))
        ), 0


def answer(words, text, kib):
    """The status of the program with this stack over this text, and what it writes."""

    def limit():
        _, most = resource.getrlimit(resource.RLIMIT_STACK)
        resource.setrlimit(resource.RLIMIT_STACK, (kib * 1024, most))

    with tempfile.TemporaryDirectory() as room:
        with open(os.path.join(room, "a.ck"), "w", encoding="ascii") as file:
            file.write(text)
        run = subprocess.run(
            [PROGRAM] + words + ["a.ck"],
            cwd=room,
            stdin=subprocess.DEVNULL,
            capture_output=True,
            timeout=SECONDS,
            preexec_fn=limit,
            check=False,
        )
    return run.returncode, run.stdout


def greatest(is_fine, low, high):
    """The greatest number from low to high that is fine, where what is above one that isn't is none
    either; None where none is."""
    if not is_fine(low):
        return None
    while low < high:
        middle = (low + high + 1) // 2
        low, high = (middle, high) if is_fine(middle) else (low, middle - 1)
    return low


def need(words, text):
    """The least stack in KiB, of whole 32 KiB, with which the program comes to an end by itself."""
    short = greatest(lambda parts: answer(words, text, 32 * parts)[0] < 0, 8, LARGE // 32)
    return 32 * ((short or 0) + 1)


def look(name, text_of, status, kib):
    """A line for each command that dies over the highest text of this kind, of which `check` has
    this status."""

    def is_right(height):
        found, told = answer(["check"], text_of(height), LARGE)
        return found == status and b"too deep" not in told

    height = greatest(is_right, 3, HIGHEST)
    if height is None:
        return [f"{name}: status {status} never comes: {answer(['check'], text_of(3), LARGE)[1]}"]
    text = text_of(height)
    return [
        f"{name}, {height} high: {words[0]} dies, and needs {need(words, text)} KiB"
        for words in COMMANDS
        if answer(words, text, kib)[0] < 0
    ]


def main():
    kib = int(sys.argv[1]) if len(sys.argv) > 1 else 3072
    kinds = [(name, text_of, 0) for name, text_of in texts()] + list(trees())
    with ThreadPoolExecutor(2) as pool:
        found = list(pool.map(lambda kind: look(*kind, kib), kinds))
    for line in (line for lines in found for line in lines):
        print(line)
    bad = sum(1 for lines in found if lines)
    print(f"stack: {len(kinds)} kinds of text, {bad} of them not right with {kib} KiB")
    return 1 if bad else 0


if __name__ == "__main__":
    sys.exit(main())
