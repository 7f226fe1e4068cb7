#!/usr/bin/env python3
"""Plays a hundred voices of each kind of unit generator, by the program that the gate has built and by
a loop in C of the same arithmetic, which is compiled by gcc. All samples have to be the same: a kind
whose samples differ is named, and fails the script. It prints the processor time of both, the least of
so many rounds in turn, and that of ChucK beside them, where there is a `chuck`.

In the C loop each voice has its settings, its state, its gain and its last output in memory; each
product has 128 bits, is floored and clamped, and the voices are added from the left, as the language's
rules say. It holds no graph. This is no part of the gate."""

import argparse
import os
import resource
import shutil
import subprocess
import sys
import tempfile

TOP = os.path.dirname(os.path.dirname(os.path.realpath(__file__)))
PROGRAM = os.path.join(TOP, "crates", "chuckfix", "out", "chuckfix")
ONE = 1 << 32
VOICES = 100
HEADER = 44

LOOPS = r"""
#include <stdint.h>
#include <stdio.h>
#include <stdlib.h>
#include <string.h>

/* A raw number: 2^32 of it are 1.0. */
typedef int64_t fix;
typedef __int128 wide;

#define ONE (1LL << 32)
#define HALF_TURN 0x80000000u
#define VOICES 100

static inline fix clamp(wide z) {
    return z > INT64_MAX ? INT64_MAX : z < INT64_MIN ? INT64_MIN : (fix)z;
}

static inline fix mul(fix a, fix b) {
    return clamp(((wide)a * b) >> 32);
}

static inline fix add(fix a, fix b) {
    fix sum;
    return __builtin_add_overflow(a, b, &sum) ? clamp((wide)a + b) : sum;
}

static inline fix sub(fix a, fix b) {
    fix rest;
    return __builtin_sub_overflow(a, b, &rest) ? clamp((wide)a - b) : rest;
}

static inline int16_t sample_of(fix a) {
    wide z = ((wide)a * 32768) >> 32;
    return z > 32767 ? 32767 : z < -32768 ? -32768 : (int16_t)z;
}

/* Oscillators: the height of a wave at a phase, of which a turn has 2^32. */

typedef struct { fix frequency, width; uint32_t phase; } wave;

static inline fix sine(uint32_t phase, fix width) {
    uint64_t turn = phase % HALF_TURN;
    uint64_t area = turn * (HALF_TURN - turn);
    fix size = (fix)(((unsigned __int128)area << 34) / (5 * (1ULL << 60) - area));
    return phase < HALF_TURN ? size : -size;
}

static inline fix saw(uint32_t phase, fix width) {
    return 2 * (fix)phase - ONE;
}

static inline fix triangle(uint32_t phase, fix width) {
    return phase < HALF_TURN ? 4 * (fix)phase - ONE : 3 * ONE - 4 * (fix)phase;
}

static inline fix square(uint32_t phase, fix width) {
    return phase < HALF_TURN ? ONE : -ONE;
}

static inline fix pulse(uint32_t phase, fix width) {
    return phase < width ? ONE : -ONE;
}

static inline fix phasor(uint32_t phase, fix width) {
    return phase;
}

static inline uint32_t increment(fix frequency) {
    return (uint32_t)(frequency / 44100 - (frequency % 44100 < 0));
}

/* Random words: PCG of 64 bits with words of 32, on stream 54. */

typedef struct { uint64_t state; } words;

#define STEP(state) ((state) * 6364136223846793005ULL + 109)

static inline uint32_t next_word(words *w) {
    uint64_t s = w->state;
    w->state = STEP(s);
    uint32_t mixed = (uint32_t)(((s >> 18) ^ s) >> 27);
    uint32_t turn = (uint32_t)(s >> 59);
    return (mixed >> turn) | (mixed << ((32 - turn) % 32));
}

/* Envelopes: a value on its way to a target. */

enum stage { ATTACK, DECAY, SUSTAIN, RELEASE, DONE };

typedef struct { fix value, target, step; int64_t left; } ramp;
typedef struct { ramp ramp; enum stage stage; int64_t attack, decay, release; fix sustain; } adsr;

static void begin(ramp *r, fix target, int64_t samples) {
    r->left = samples < 1 ? 1 : samples;
    r->step = clamp(((wide)target - r->value) / r->left);
    r->target = target;
}

static inline void go_on(ramp *r) {
    if (r->left == 1) r->value = r->target;
    if (r->left > 1) r->value = add(r->value, r->step);
    if (r->left > 0) r->left--;
}

/* Delay lines: a ring of the samples that came in last. */

typedef struct { fix *items; size_t size, at, delay; fix share; } line;

static inline void push(line *l, fix x) {
    l->items[l->at] = x;
    if (++l->at == l->size) l->at = 0;
}

static inline fix back(line *l, size_t places) {
    size_t at = l->at + l->size - 1 - places;
    return l->items[at < l->size ? at : at - l->size];
}

/* Filters. */

typedef struct { fix b0, a1, y1; } one_pole;
typedef struct { fix b0, b1, x1; } one_zero;
typedef struct { fix b0, b1, b2, a1, a2, x1, x2, y1, y2; } biquad;

/* One tick of each kind. */

#define WAVE(NAME) \
    static inline fix NAME##_tick(wave *w, fix x) { \
        uint32_t phase = w->phase; \
        w->phase = phase + increment(w->frequency); \
        return NAME(phase, w->width); \
    }

WAVE(sine)
WAVE(saw)
WAVE(triangle)
WAVE(square)
WAVE(pulse)
WAVE(phasor)

static inline fix step_tick(fix *next, fix x) {
    return *next;
}

static inline fix gain_tick(char *nothing, fix x) {
    return x;
}

static inline fix noise_tick(words *w, fix x) {
    return 2 * (fix)next_word(w) - ONE;
}

static inline fix envelope_tick(ramp *r, fix x) {
    go_on(r);
    return mul(x, r->value);
}

static inline fix adsr_tick(adsr *a, fix x) {
    int is_last = a->ramp.left == 1;
    go_on(&a->ramp);
    fix value = a->ramp.value;
    if (is_last && a->stage == ATTACK) {
        a->stage = DECAY;
        begin(&a->ramp, a->sustain, a->decay);
    } else if (is_last && a->stage == DECAY) {
        a->stage = SUSTAIN;
    } else if (is_last && a->stage == RELEASE) {
        a->stage = DONE;
    }
    return mul(x, value);
}

static inline fix delay_tick(line *l, fix x) {
    push(l, x);
    return back(l, l->delay);
}

static inline fix delay_l_tick(line *l, fix x) {
    push(l, x);
    fix first = back(l, l->delay);
    return add(first, mul(sub(back(l, l->delay + 1), first), l->share));
}

static inline fix echo_tick(line *l, fix x) {
    push(l, x);
    return add(sub(x, mul(x, l->share)), mul(back(l, l->delay), l->share));
}

static inline fix one_pole_tick(one_pole *f, fix x) {
    return f->y1 = sub(mul(f->b0, x), mul(f->a1, f->y1));
}

static inline fix one_zero_tick(one_zero *f, fix x) {
    fix y = add(mul(f->b0, x), mul(f->b1, f->x1));
    f->x1 = x;
    return y;
}

static inline fix biquad_tick(biquad *f, fix x) {
    fix y = add(add(mul(f->b0, x), mul(f->b1, f->x1)), mul(f->b2, f->x2));
    y = sub(sub(y, mul(f->a1, f->y1)), mul(f->a2, f->y2));
    f->x2 = f->x1;
    f->x1 = x;
    f->y2 = f->y1;
    f->y1 = y;
    return y;
}

/* A hundred voices of each kind, which all read one noise where they read anything. The words of a
   noise begin from its number among all objects: the first one has 3, and those of an array come
   after the array. */

static long samples;
static int16_t *out;
static int is_fed;
static words source;
static fix source_gain;
static fix settings[8];

#define VOICE(NAME, STATE) \
    typedef struct { STATE state; fix gain, last; } NAME##_voice; \
    __attribute__((noinline)) static void NAME##_play(NAME##_voice *voice) { \
        for (long i = 0; i < samples; i++) { \
            fix x = is_fed ? mul(noise_tick(&source, 0), source_gain) : 0, sum = 0; \
            for (int k = 0; k < VOICES; k++) { \
                voice[k].last = mul(NAME##_tick(&voice[k].state, x), voice[k].gain); \
                sum = add(sum, voice[k].last); \
            } \
            out[i] = sample_of(sum); \
        } \
    } \
    static void NAME##_set(STATE *it, int k); \
    static void NAME##_all(void) { \
        NAME##_voice *voice = calloc(VOICES, sizeof *voice); \
        for (int k = 0; k < VOICES; k++) { \
            voice[k].gain = ONE / 128; \
            NAME##_set(&voice[k].state, k); \
        } \
        NAME##_play(voice); \
    } \
    static void NAME##_set(STATE *it, int k)

#define TURNING(NAME) \
    VOICE(NAME, wave) { *it = (wave){settings[0] + k * settings[1], settings[2], 0}; }

#define LINE(NAME) \
    VOICE(NAME, line) { \
        size_t size = settings[0] + 2; \
        *it = (line){calloc(size, sizeof(fix)), size, 0, settings[1], settings[2]}; \
    }

TURNING(sine)
TURNING(saw)
TURNING(triangle)
TURNING(square)
TURNING(pulse)
TURNING(phasor)
VOICE(step, fix) { *it = settings[0]; }
VOICE(gain, char) { *it = 0; }
VOICE(noise, words) { it->state = STEP(109 + 4 + k); }
VOICE(envelope, ramp) { begin(it, ONE, settings[0]); }
VOICE(adsr, adsr) {
    *it = (adsr){{0}, ATTACK, settings[0], settings[1], settings[3], settings[2]};
    begin(&it->ramp, ONE, it->attack);
}
LINE(delay)
LINE(delay_l)
LINE(echo)
VOICE(one_pole, one_pole) { *it = (one_pole){settings[0], settings[1], 0}; }
VOICE(one_zero, one_zero) { *it = (one_zero){settings[0], settings[1], 0}; }
VOICE(biquad, biquad) {
    *it = (biquad){settings[0], settings[1], settings[2], settings[3], settings[4]};
}

#define KIND(NAME) if (!strcmp(argv[1], #NAME)) NAME##_all();

/* loops KIND SAMPLES FILE IS_FED SETTINGS.. */
int main(int argc, char **argv) {
    samples = atol(argv[2]);
    is_fed = atoi(argv[4]);
    source.state = STEP(109 + 3);
    source_gain = ONE / 2;
    for (int i = 5; i < argc; i++) settings[i - 5] = atoll(argv[i]);
    out = calloc(samples, sizeof *out);
    KIND(sine) KIND(saw) KIND(triangle) KIND(square) KIND(pulse) KIND(phasor)
    KIND(step) KIND(gain) KIND(noise) KIND(envelope) KIND(adsr)
    KIND(delay) KIND(delay_l) KIND(echo) KIND(one_pole) KIND(one_zero) KIND(biquad)
    FILE *file = fopen(argv[3], "wb");
    return !file || fwrite(out, sizeof *out, samples, file) != (size_t)samples || fclose(file);
}
"""

NOISE = "Noise n;\n0.5 => n.gain;\n"


def voices(kind, settings, source=""):
    """The program of a hundred voices, each with these settings."""
    read = "n => v[i] => dac;" if source else "v[i] => dac;"
    return (
        f"{source}{kind} v[{VOICES}];\n"
        f"for (0 => int i; i < {VOICES}; i++) {{ {settings} 0.0078125 => v[i].gain; {read} }}\n"
        "SAMPLES::samp => now;\n"
    )


def wave(kind):
    return voices(kind, "100 + i => v[i].freq;")


def shaped(kind, settings):
    return voices(kind, settings, NOISE)


def kinds(samples):
    """By each kind its program, the loop's name, and the raw numbers of the loop's settings."""
    half, third = samples // 2, samples // 3
    stages = f"v[i].set({third}::samp, {third}::samp, 0.5, 10::samp); v[i].keyOn();"
    filtered = "0.5 => v[i].b0; 0.25 => v[i].b1; 0.125 => v[i].b2; -0.5 => v[i].a1; 0.25 => v[i].a2;"
    turning = [100 * ONE, ONE, ONE // 2]
    return {
        "SinOsc": (wave("SinOsc"), "sine", turning),
        "SawOsc": (wave("SawOsc"), "saw", turning),
        "TriOsc": (wave("TriOsc"), "triangle", turning),
        "SqrOsc": (wave("SqrOsc"), "square", turning),
        "PulseOsc": (wave("PulseOsc"), "pulse", turning),
        "Phasor": (wave("Phasor"), "phasor", turning),
        "Step": (voices("Step", "0.5 => v[i].next;"), "step", [ONE // 2]),
        "Noise": (voices("Noise", ""), "noise", []),
        "Gain": (shaped("Gain", ""), "gain", []),
        "Envelope": (shaped("Envelope", f"{half}::samp => v[i].duration; v[i].keyOn();"), "envelope", [half]),
        "ADSR": (shaped("ADSR", stages), "adsr", [third, third, ONE // 2, 10]),
        "Delay": (shaped("Delay", "10::samp => v[i].delay;"), "delay", [4095, 10, 0]),
        "DelayL": (shaped("DelayL", "10::samp => v[i].delay; 0.25 => v[i].frac;"), "delay_l", [4095, 10, ONE // 4]),
        "Echo": (shaped("Echo", "10::samp => v[i].delay; 0.25 => v[i].mix;"), "echo", [4095, 10, ONE // 4]),
        "OnePole": (shaped("OnePole", "0.5 => v[i].b0; -0.25 => v[i].a1;"), "one_pole", [ONE // 2, -ONE // 4]),
        "OneZero": (shaped("OneZero", "0.5 => v[i].b0; -0.25 => v[i].b1;"), "one_zero", [ONE // 2, -ONE // 4]),
        "BiQuad": (shaped("BiQuad", filtered), "biquad", [ONE // 2, ONE // 4, ONE // 8, -ONE // 2, ONE // 4]),
    }


def timed(words):
    """Runs a program, and gives its processor time in seconds."""
    before = resource.getrusage(resource.RUSAGE_CHILDREN)
    subprocess.run(words, stdout=subprocess.DEVNULL, stderr=subprocess.DEVNULL, check=True)
    after = resource.getrusage(resource.RUSAGE_CHILDREN)
    return after.ru_utime + after.ru_stime - before.ru_utime - before.ru_stime


def read(path, start):
    with open(path, "rb") as file:
        return file.read()[start:]


def compare(room, name, case, options):
    """Plays one kind, prints its times, and tells whether all samples are the same."""
    text, loop, settings = case
    file, sheet, raw = (os.path.join(room, it) for it in ("voices.ck", "sheet.wav", "loop.raw"))
    with open(file, "w") as out:
        # ChucK has the fraction of a delay in its length
        out.write(text.replace("SAMPLES", str(options.samples)))
    ours = [options.program, "render", str(options.samples), sheet, file]
    # the first object that a program makes has the number 3
    source = int("Noise n" in text)
    loops = [os.path.join(room, "loops"), loop, str(options.samples), raw, str(source), *map(str, settings)]
    best = [float("inf")] * 3
    for _ in range(options.rounds):
        best[0] = min(best[0], timed(ours))
        best[1] = min(best[1], timed(loops))
        if options.chuck and name != "DelayL":
            best[2] = min(best[2], timed(["chuck", "--silent", file]))
    same = read(sheet, HEADER) == read(raw, 0)
    each = [it * 1e9 / options.samples / VOICES for it in best]
    chuck = f"{each[2]:7.1f} {best[0] / best[2]:6.2f}" if best[2] < float("inf") else ""
    told = "" if same else "  the samples differ"
    print(f"{name:9} {each[0]:6.1f} {each[1]:6.1f} {best[0] / best[1]:6.2f} {chuck}{told}", flush=True)
    return same


def main():
    options = argparse.ArgumentParser(description=__doc__, formatter_class=argparse.RawDescriptionHelpFormatter)
    options.add_argument("kinds", nargs="*", help="only these kinds")
    options.add_argument("--rounds", type=int, default=3)
    options.add_argument("--samples", type=int, default=44_100)
    options.add_argument("--program", default=PROGRAM)
    options = options.parse_args()
    options.chuck = shutil.which("chuck")
    with tempfile.TemporaryDirectory() as room:
        built = ["gcc", "-O2", "-x", "c", "-", "-o", os.path.join(room, "loops")]
        subprocess.run(built, input=LOOPS, text=True, check=True)
        print("nanoseconds of a voice's sample: ours, the loop in C, ratio; ChucK, ratio")
        cases = kinds(options.samples)
        wrong = [name for name in options.kinds or cases if not compare(room, name, cases[name], options)]
    return 1 if wrong else 0


if __name__ == "__main__":
    sys.exit(main())
