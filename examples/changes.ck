// Changes on six bells: from rounds each bell moves one place at a time, as ringers do, through all of
// a plain course, and back to rounds.
class Bell {
    SinOsc hum => Envelope ring => dac;
    SinOsc strike => ring;
    SinOsc tierce => Gain third => ring;
    0.5 => third.gain;
    0.09 => ring.gain;
    0 => ring.value;

    fun void tune(float pitch) {
        pitch / 2 => hum.freq;
        pitch => strike.freq;
        pitch * 1.2 => tierce.freq;
    }

    fun void toll() {
        1.0 => ring.value;
        2500::ms => ring.duration;
        ring.keyOff();
    }
}

[880.0, 783.99, 698.46, 659.26, 587.33, 523.25] @=> float pitches[];
Bell one;
Bell two;
Bell three;
Bell four;
Bell five;
Bell six;

fun Bell bell(int number) {
    if (number == 0) return one;
    if (number == 1) return two;
    if (number == 2) return three;
    if (number == 3) return four;
    if (number == 4) return five;
    return six;
}

[0, 1, 2, 3, 4, 5] @=> int row[];
for (0 => int i; i < 6; i++) bell(i).tune(pitches[i]);

fun void ring() {
    for (0 => int place; place < 6; place++) {
        bell(row[place]).toll();
        280::ms => now;
    }
}

// The bells change places in pairs from this place on.
fun void change(int from) {
    from => int place;
    while (place + 1 < 6) {
        row[place] => int kept;
        row[place + 1] => row[place];
        kept => row[place + 1];
        2 +=> place;
    }
}

fun int in_rounds() {
    for (0 => int i; i < 6; i++) if (row[i] != i) return 0;
    return 1;
}

repeat (3) ring();
0 => int blow;
do {
    change(blow % 2);
    blow++;
    ring();
    // the hand-stroke of each second row waits a little
    if (blow % 2 == 0) 280::ms => now;
} while (!in_rounds());
repeat (2) ring();
// the same twice more, without the wait
repeat (12) {
    change(0);
    ring();
    change(1);
    ring();
}
repeat (2) ring();
3::second => now;
