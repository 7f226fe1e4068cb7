// Plucked strings: a short burst of noise goes round in a delay line, and a filter makes it duller
// at each round, so that it is a tone that dies away. Four strings play broken chords, and ring on.
class String {
    Noise pluck => Envelope burst => DelayL line => OneZero dull => Gain out => dac;
    dull => Gain back => line;
    0.9 => out.gain;
    0.995 => back.gain;
    8::ms => burst.duration;

    // Besides the line a round takes a sample for the way back, and half of one in the filter.
    fun void play(float freq) {
        44100 / freq - 1.5 => float samples;
        samples $ int => int whole;
        whole::samp => line.delay;
        samples - whole => line.frac;
        0.6 => burst.value;
        0 => burst.target;
    }
}

[[24, 30, 36, 48], [20, 30, 40, 48], [16, 24, 32, 40], [18, 27, 36, 45]] @=> int chords[][];
[0, 1, 2, 3, 2, 1] @=> int way[];
String strings[4];
for (0 => int beat; beat < 48; beat++) {
    way[beat % way.size()] => int n;
    strings[n].play(5.5 * chords[beat / way.size() % chords.size()][n]);
    200::ms => now;
}
3::second => now;
