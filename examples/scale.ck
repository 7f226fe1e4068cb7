// A scale of a soft triangle, up to the octave and down again. Each note swells and fades: its
// loudness goes from step to step, a millisecond each.
TriOsc voice => Gain shape => dac;
0 => shape.gain;

fun void fade(float to) {
    (to - shape.gain()) / 20 => float step;
    repeat (20) {
        shape.gain() + step => shape.gain;
        1::ms => now;
    }
    to => shape.gain;
}

fun void play(int step, dur length) {
    11 * step => voice.freq;
    fade(0.4);
    length - 40::ms => now;
    fade(0);
}

// The steps of a major scale, as they are to each other.
[24, 27, 30, 32, 36, 40, 45, 48] @=> int steps[];
for (0 => int i; i < steps.size(); i++) play(steps[i], 200::ms);
for (steps.size() - 2 => int i; i > 0; i--) play(steps[i], 200::ms);
play(steps[0], 800::ms);
