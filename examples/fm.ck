// One sine bends the frequency of another and isn't heard by itself: at first hardly, then ever
// wider, until a plain tone is a bright and rough one, and back. Then once more, out of tune.
SinOsc bend => SinOsc tone => dac;
2 => tone.sync;
165 => tone.freq;
0.5 => tone.gain;
0 => bend.gain;

fun void widen(float to, int steps) {
    (to - bend.gain()) / steps => float step;
    repeat (steps) {
        bend.gain() + step => bend.gain;
        5::ms => now;
    }
}

fun void swell(float ratio) {
    ratio * tone.freq() => bend.freq;
    widen(1500, 120);
    400::ms => now;
    widen(0, 200);
}

swell(2);
swell(1.4);
