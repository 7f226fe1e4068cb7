// Four chords of three sines, round and round. Every voice glides to its next note, fast at first
// and ever slower, so the chord bends before it stands.
[[24, 30, 36], [24, 32, 40], [27, 36, 45], [24, 30, 48]] @=> int chords[][];
SinOsc voices[3];
Gain mix => dac;
0.25 => mix.gain;
for (0 => int i; i < voices.size(); i++) {
    8 * chords[0][i] => voices[i].freq;
    voices[i] => mix;
}

fun void glide(SinOsc voice, float to) {
    while (Std.fabs(to - voice.freq()) > 0.5) {
        voice.freq() + (to - voice.freq()) / 50 => voice.freq;
        1::ms => now;
    }
    to => voice.freq;
}

for (1 => int n; n < 9; n++) {
    500::ms => now;
    chords[n % chords.size()] @=> int next[];
    for (0 => int i; i < voices.size(); i++) spork ~ glide(voices[i], 8 * next[i]);
}
1::second => now;
