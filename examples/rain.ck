// Rain: drops fall at random, few, then many, then few; each is a click in a small ringing filter.
// Behind them wind that comes and goes.
class Drop {
    Impulse click => BiQuad ring => Gain out => dac;

    fun void fall(float bright, float loud) {
        1.0 => ring.b0;
        -1.9 + bright => ring.a1;
        0.96 => ring.a2;
        loud => out.gain;
        1.0 => click.next;
        200::ms => now;
    }
}

Noise wind => OnePole soft => Envelope gust => dac;
0.97 => soft.pole;
1.0 => soft.gain;
0 => gust.value;

fun void blow(float strength, dur length) {
    strength => gust.target;
    length => gust.duration;
    length => now;
}

fun void weather() {
    while (true) {
        blow(0.35, 7::second);
        blow(0.1, 5::second);
        blow(0.5, 4::second);
        blow(0.05, 9::second);
    }
}

// A shower of this many drops, with this much time between two in the mean.
fun void shower(int drops, dur apart) {
    repeat (drops) {
        spork ~ drop();
        apart * Math.random2f(0.1, 1.9) => now;
    }
}

fun void drop() {
    Drop d;
    d.fall(Math.random2f(0.0, 1.6), Math.random2f(0.04, 0.25));
}

Math.srandom(42);
spork ~ weather();
shower(20, 500::ms);
shower(60, 200::ms);
shower(400, 60::ms);
shower(60, 200::ms);
shower(14, 700::ms);
blow(0.0, 6::second);
