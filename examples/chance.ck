// Bells that ring by chance: which step, how loud and when is drawn anew at each stroke. The draws
// begin from a seed, so each run rings the same; another seed rings another piece.
class Bell {
    SinOsc tone => Envelope shape => Envelope again => dac;
    SinOsc rim => Gain thin => shape;
    0.35 => thin.gain;

    // Two ramps one behind the other fall fast at first, and ever slower.
    fun void strike(float freq, float loud, dur length) {
        freq => tone.freq;
        2.76 * freq => rim.freq;
        0 => tone.phase => rim.phase;
        loud => again.gain;
        length => shape.duration => again.duration;
        1 => shape.value => again.value;
        0 => shape.target => again.target;
    }
}

Math.srandom(7);
[24, 27, 30, 36, 40] @=> int steps[];
Bell bells[6];
for (0 => int i; i < 60; i++) {
    steps[Math.random2(0, steps.size() - 1)] * Math.random2(1, 2) => int step;
    bells[i % bells.size()].strike(11.0 * step, Math.random2f(0.06, 0.2), 1200::ms);
    Math.random2(1, 3) * 110::ms => now;
}
1200::ms => now;
