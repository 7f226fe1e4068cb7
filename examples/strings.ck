// Chance on five strings: a walk over a scale, plucked at random, first sparse, then dense, then sparse
// again, and a last chord from below. Another seed makes another piece of the same form.
class Pluck {
    Noise hammer => Envelope touch => Delay line => OnePole dull => dac;
    dull => Gain back => line;
    0 => touch.value;
    2::ms => touch.duration;
    0.4 => dull.pole;
    0.99 => back.gain;

    fun void play(float pitch, float loud) {
        1::second / pitch => line.delay;
        loud => touch.gain;
        1.0 => touch.value;
        2::ms => touch.duration;
        touch.keyOff();
    }
}

[0, 3, 5, 7, 10, 12, 15, 17, 19, 22, 24] @=> int scale[];
Pluck first;
Pluck second_;
Pluck third;
Pluck fourth;
Pluck fifth;

fun float pitch(int step) {
    110.0 => float p;
    repeat (step) p * 1.0594631 => p;
    return p;
}

fun void pluck(int which, float p, float loud) {
    if (which == 0) first.play(p, loud);
    else if (which == 1) second_.play(p, loud);
    else if (which == 2) third.play(p, loud);
    else if (which == 3) fourth.play(p, loud);
    else fifth.play(p, loud);
}

// So many plucks with a rest of up to this between two.
fun void walk(int plucks, dur rest) {
    5 => int place;
    for (0 => int i; i < plucks; i++) {
        place + Math.random2(-2, 2) => place;
        if (place < 0) 1 => place;
        if (place >= scale.size()) scale.size() - 2 => place;
        pluck(i % 5, pitch(scale[place]), 0.3 + Math.random2f(0.0, 0.25));
        rest * Math.random2(1, 4) / 4 => now;
    }
}

Math.srandom(2008);
walk(24, 1200::ms);
walk(60, 480::ms);
walk(72, 240::ms);
walk(20, 1200::ms);
for (0 => int i; i < 5; i++) {
    pluck(i, pitch(scale[2 * i]), 0.5);
    350::ms => now;
}
4::second => now;
