// A conductor beats time. One player walks up and down the chord, a note at each beat; another one
// strikes its lowest note, an octave lower, at each sixth beat. The chord changes after twelve.
class Beat extends Event { int number; int chord[]; }

class Voice {
    TriOsc tone => ADSR shape => dac;
    0.35 => tone.gain;
    fun void strike(float freq, dur length) {
        freq => tone.freq;
        shape.set(4::ms, length, 0, 1::samp);
        shape.keyOn();
    }
}

fun void walk(Beat beat, int way[]) {
    Voice voice;
    while (true) {
        beat => now;
        voice.strike(11.0 * beat.chord[way[beat.number % way.size()]], 240::ms);
    }
}

fun void stay(Beat beat) {
    Voice voice;
    while (true) {
        beat => now;
        if (beat.number % 6 == 0) voice.strike(5.5 * beat.chord[0], 900::ms);
    }
}

Beat beat;
spork ~ walk(beat, [0, 1, 2, 3, 2, 1]);
spork ~ stay(beat);
me.yield();
[[24, 30, 36, 48], [20, 24, 30, 40], [16, 20, 24, 32], [18, 27, 36, 45]] @=> int chords[][];
for (0 => beat.number; beat.number < 48; beat.number++) {
    chords[beat.number / 12] @=> beat.chord;
    beat.broadcast();
    130::ms => now;
}
