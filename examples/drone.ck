// A drone of six voices. Each two of them stand a little apart and beat: the low ones once in two
// seconds, the next ones once in a second, the high ones twice. It comes and goes slowly.
SawOsc voices[6];
Gain mix => dac;
0 => mix.gain;
[55.0, 55.5, 110, 111, 164.5, 166.5] @=> float freqs[];
for (0 => int i; i < voices.size(); i++) {
    freqs[i] => voices[i].freq;
    1.0 / (i + 2) => voices[i].gain;
    voices[i] => mix;
}

fun void fade(float to, dur length) {
    (to - mix.gain()) / 100 => float step;
    repeat (100) {
        mix.gain() + step => mix.gain;
        length / 100 => now;
    }
}

fade(0.5, 2::second);
6::second => now;
fade(0, 4::second);
