#!/usr/bin/env python3
"""Runs the program that the gate has built with its memory refused: each allocation in turn, once
alone and once with all that come behind it. The program has to end with status 6, having written a
front of what it writes with memory enough, or to give that whole answer. Any other end is named, and
fails the script.

The C library's malloc, calloc and realloc are replaced by a library of a few lines, which is compiled
by gcc. This is no part of the gate."""

import os
import subprocess
import sys
import tempfile

TOP = os.path.dirname(os.path.dirname(os.path.realpath(__file__)))
PROGRAM = os.path.join(TOP, "crates", "chuckfix", "out", "chuckfix")
MEMORY = 6
SECONDS = 60

# Counts allocations, and refuses the one whose number REFUSED names, or it and all later ones where
# REFUSED_ON is set. At the end it writes the count into the file COUNTED.
LIBRARY = r"""
#include <errno.h>
#include <fcntl.h>
#include <stdio.h>
#include <stdlib.h>
#include <unistd.h>

extern void *__libc_malloc(size_t size);
extern void *__libc_calloc(size_t count, size_t size);
extern void *__libc_realloc(void *block, size_t size);

static unsigned long seen, refused;
static int on;

__attribute__((constructor)) static void begin(void) {
    const char *number = getenv("REFUSED");
    refused = number ? strtoul(number, NULL, 10) : 0;
    on = getenv("REFUSED_ON") != NULL;
    seen = 0;
}

static int refuses(void) {
    seen++;
    if (refused == 0 || seen < refused || (seen > refused && !on)) return 0;
    errno = ENOMEM;
    return 1;
}

void *malloc(size_t size) { return refuses() ? NULL : __libc_malloc(size); }
void *calloc(size_t count, size_t size) { return refuses() ? NULL : __libc_calloc(count, size); }
void *realloc(void *block, size_t size) { return refuses() ? NULL : __libc_realloc(block, size); }

__attribute__((destructor)) static void end(void) {
    const char *name = getenv("COUNTED");
    char text[32];
    int file = name ? open(name, O_WRONLY | O_CREAT | O_TRUNC, 0600) : -1;
    if (file < 0) return;
    if (write(file, text, snprintf(text, sizeof text, "%lu", seen)) < 0) _exit(70);
    close(file);
}
"""

# All forms of one shred, over three blocks of samples and up to a trap.
FORMS = r"""
class Sum {
    1 => int n; 0.5 => float x; 2::samp => dur d; time t; "sum" => string s;
    Sum @ next; Shred @ shred; static int made;
    made++;
    fun int add(int more) { more +=> n; return n; }
    fun Sum itself() { return this; }
    fun static int twice(int m) { return m * 2; }
}
class Below extends Sum {
    3 *=> n;
    fun int add(int more) { 10 * more -=> this.n; now => t; return --n; }
}
fun string join(string a, string b) { if (a == "") return b; else return a + "," + b; }
fun float half(float x) { return x / 2; }
fun int deep(int n) { return n < 1 ? 0 : 1 + deep(n - 1); }
fun dur rest(dur d) { now => time before; d => now; return now - before; }
fun void nothing() { return; }

new Below @=> Sum first;
null @=> Sum @ last;
Sum middle, third;
middle @=> first.next;
third @=> middle.next;
<<< first, last, first.next.next == third, Sum.made, deep(300) >>>;
<<< 2 => first.add, first.add(1), 4 => middle.itself().add, last.twice(3), 5 => last.twice >>>;

"" => string all;
0 => int i;
while (i < 3) { join(all, "w" + i++) => all; if (i == 2) continue; 1.5 +=> first.x; }
until (i == 0) { i--; 1::samp => now; }
do ++i; while (i < 3);
do { if (i == 2) break; --i; } until (i < 1);
for (0 => int j; j < 4; j++) j +=> first.s;
for (;;) { if (all.length() > 20) break; join(all, first.s.substring(0, 2)) => all; }
repeat (3) nothing();
<<< all, 1 => all.charAt, Std.abs(-7), -1.25 => Std.fabs, first.s >>>;
<<< first.x >>>; <<< half(3) >>>; <<< rest(5::ms) >>>; <<< now >>>; <<< all >>>; <<< first.shred >>>;
<<< i && first.n || !i, 7 & 3 | 8 ^ 1 << 2, 7 % 4 > -i, 3.7 $ int, 0.5 * 3, "a" != "b" >>>;
<<< 10::ms / 3 + 1.5 * samp, (now + 2::samp - now) / samp, now % ms, (null $ Sum) == last >>>;
second / 10 => now;
4000::samp +=> now;
now + 1::samp => now;
6 %=> i; 3 |=> i; 14 &=> i; 5 ^=> i; 2 /=> i; 1 -=> i;
<<< i, first.t, new Sum >>>;
[3, 1, 2] @=> int beats[];
beats @=> int same[];
beats << 4 << 5;
int grid[3][4];
new string[2][2] @=> string words[][];
[[1.5], [2.5, 3]] @=> float lines[][];
"a" => words[1][0]; "b" +=> words[1][0];
7 => grid[2][3]; grid[2][3]++; --grid[2][3]; [9, 8] @=> grid[0];
Below many[3];
Sum @ none[2];
many[1] @=> none[0];
<<< beats, same.size(), beats[4], words[1][0], grid[2][3], grid[0].size(), lines[1][0] >>>;
<<< none[0].add(1), many[2].made, 3 => none[0].made, ++none[1].made, many.size() >>>;
beats.clear();
string texts[0];
texts << "x" << all;
<<< same.size(), texts[1] >>>;
1 / (i - i) => int never;
"""

# Shreds and events, those of two files side by side.
SHREDS = r"""
class Note extends Event {
    int pitch;
    fun void ring(string name) { this => now; <<< name, pitch, me.id() >>>; }
    fun static void count(int n) { repeat (n) me.yield(); }
}
Note n;
fun void tick(string name, int times) {
    for (0 => int i; i < times; i++) { <<< name + i >>>; 1::samp => now; }
    me.exit();
}
spork ~ n.ring("a") => Shred a;
spork ~ n.ring("b");
spork ~ Note.count(3);
spork ~ tick("tick", 2) => Shred ticker;
me.yield();
60 => n.pitch;
n.signal();
1::samp => now;
n.broadcast();
<<< a, a.id(), ticker.id(), me == a >>>;
1::samp => now;
Machine.remove(ticker.id());
3::samp => now;
"""

SOUND = r"""
class Voice {
    SqrOsc o => ADSR e => Echo x => dac;
    e.set(2::samp, 3::samp, 0.5, 4::samp);
    20::samp => x.max; 7::samp => x.delay;
    fun void play(float f) { f => o.freq; e.keyOn(); 5::samp => now; e.keyOff(); 5::samp => now; }
}
Voice voices[3];
Noise n => OnePole p => OneZero z => BiQuad q => Envelope env => Delay d => DelayL l => Gain g => dac;
Impulse i => Step s => blackhole;
10000::samp => d.max; 0.5 => l.frac; 2 => g.op; env.keyOn(1);
fun void ring(int k) { SinOsc mine => dac; voices[k].play(Math.random2f(100, 800)); }
Math.srandom(7);
for (0 => int k; k < 3; k++) { spork ~ ring(k); Math.random2(1, 4)::samp => now; }
repeat (40) { g => g; g =< g; 1::samp => now; }
<<< d.max(), x_of(voices[1]), env.value() >>>;
fun dur x_of(Voice v) { return v.x.delay(); }
10001::samp => d.delay;
"""

COMMANDS = (
    ["check", "a.ck"],
    ["wakes", "9000", "a.ck"],
    ["render", "9000", "a.wav", "a.ck"],
    ["stats", "100", "a.ck"],
    ["code", "a.ck"],
    ["wakes", "9", "b.ck", "b.ck"],
    ["render", "9", "a.wav", "b.ck", "b.ck"],
    ["wakes", "60", "c.ck"],
    ["render", "60", "a.wav", "c.ck"],
)


def run(words, library, refused=0, on=False):
    """The status, what was written and pressed, and how many allocations there were."""
    for name in ("a.wav", "count"):
        if os.path.exists(name):
            os.remove(name)
    env = {"LD_PRELOAD": library, "COUNTED": "count", "REFUSED": str(refused)}
    if on:
        env["REFUSED_ON"] = "1"
    try:
        done = subprocess.run([PROGRAM, *words], env=env, stdin=subprocess.DEVNULL,
                              stdout=subprocess.PIPE, stderr=subprocess.PIPE, timeout=SECONDS)
    except subprocess.TimeoutExpired:
        return None, b"", b"", 0
    sheet = read("a.wav")
    return done.returncode, done.stdout + done.stderr, sheet, int(read("count") or 0)


def read(name):
    """The bytes of a file, none where it isn't there."""
    if not os.path.exists(name):
        return b""
    with open(name, "rb") as file:
        return file.read()


def main():
    runs = wanting = whole = failed = 0
    with tempfile.TemporaryDirectory() as room:
        os.chdir(room)
        with open("refuse.c", "w") as file:
            file.write(LIBRARY)
        library = os.path.join(room, "refuse.so")
        subprocess.run(["gcc", "-O2", "-shared", "-fPIC", "-o", library, "refuse.c"], check=True)
        for name, text in (("a.ck", FORMS), ("b.ck", SHREDS), ("c.ck", SOUND)):
            with open(name, "w") as file:
                file.write(text)
        for words in COMMANDS:
            status, text, sheet, count = run(words, library)
            told = " ".join(words)
            if status not in (0, 3) or count == 0:
                print(f"memory: {told}: status {status} and {count} allocations with memory enough")
                failed += 1
                continue
            for refused in range(1, count + 1):
                for on in (False, True):
                    runs += 1
                    came, wrote, pressed, _ = run(words, library, refused, on)
                    if came == MEMORY and text.startswith(wrote) and sheet.startswith(pressed):
                        wanting += 1
                    elif (came, wrote, pressed) == (status, text, sheet):
                        whole += 1
                    else:
                        failed += 1
                        which = f"{refused} and all later ones" if on else f"{refused}"
                        is_front = text.startswith(wrote) and sheet.startswith(pressed)
                        print(f"memory: {told}: refused allocation {which}: status {came}"
                              f"{'' if is_front else ', and other bytes'}")
    print(f"memory: {runs} runs with memory refused: {wanting} wanted memory, "
          f"{whole} gave the whole answer, {failed} failed")
    return 1 if failed or not wanting else 0


sys.exit(main())
