// A canon: four voices sing one tune, each two bars behind the one before and lower. The first that
// is done holds the last note until all have come home.
class Singer {
    TriOsc tone => ADSR shape => dac;
    shape.set(15::ms, 90::ms, 0.6, 120::ms);
    0.16 => shape.gain;

    fun void sing(float pitch, dur length) {
        pitch => tone.freq;
        shape.keyOn();
        length - 60::ms => now;
        shape.keyOff();
        60::ms => now;
    }
}

// The pitch so many half tones above or below 220 turns a second.
fun float pitch(int step) {
    220.0 => float p;
    while (step > 0) { p * 1.0594631 => p; step--; }
    while (step < 0) { p / 1.0594631 => p; step++; }
    return p;
}

300::ms => dur beat;
[0, 4, 7, 4, 5, 9, 12, 9, 11, 7, 2, 7, 9, 7, 5, 2, 4, 7, 12, 11, 9, 5, 2, -1] @=> int tune[];
[1, 1, 1, 1, 1, 1, 2, 1, 1, 1, 1, 1, 1, 1, 1, 1, 1, 1, 2, 1, 1, 1, 1, 1] @=> int beats[];
Event home;

fun void voice(int below, int rounds) {
    Singer singer;
    repeat (rounds) {
        for (0 => int i; i < tune.size(); i++)
            singer.sing(pitch(tune[i] - below), beats[i] * beat);
    }
    pitch(-below) => singer.tone.freq;
    singer.shape.keyOn();
    home => now;
    singer.shape.keyOff();
    1::second => now;
}

spork ~ voice(0, 7);
8 * beat => now;
spork ~ voice(5, 7);
8 * beat => now;
spork ~ voice(12, 7);
8 * beat => now;
spork ~ voice(17, 7);
7 * 26 * beat + 8 * beat => now;
home.broadcast();
1::second => now;
