// A few notes between two walls. Each is heard at once, a third of a second later from the one, half
// a second later from the other, and once more from both. The rests are for listening.
TriOsc voice => ADSR shape => Echo near => Echo far => dac;
shape.set(5::ms, 60::ms, 0.4, 60::ms);
330::ms => near.max => near.delay;
495::ms => far.max => far.delay;
0.35 => near.mix => far.mix;

fun void play(int steps[], dur length) {
    for (0 => int i; i < steps.size(); i++) {
        11 * steps[i] => voice.freq;
        shape.keyOn();
        length / 2 => now;
        shape.keyOff();
        length / 2 => now;
    }
}

// The steps of a call and of its answer, as they are to each other.
repeat (2) {
    play([36, 45, 54, 48], 165::ms);
    1320::ms => now;
    play([40, 36, 30, 27, 24], 165::ms);
    1485::ms => now;
}
