// A lullaby: a melody over a rocking third, with an echo; the last line slows down.
TriOsc voice => ADSR shape => Gain sum => dac;
sum => Echo room => dac;
800::ms => room.max;
330::ms => room.delay;
0.35 => room.mix;
0.5 => room.gain;
shape.set(40::ms, 200::ms, 0.7, 250::ms);
0.26 => shape.gain;

SinOsc left => ADSR rock => dac;
SinOsc right => rock;
rock.set(60::ms, 300::ms, 0.5, 300::ms);
0.12 => rock.gain;

fun float pitch(int step) {
    261.63 => float p;
    while (step > 0) { p * 1.0594631 => p; step--; }
    while (step < 0) { p / 1.0594631 => p; step++; }
    return p;
}

600::ms => dur beat;
0 => int bar;

// One bar of three beats: its notes, or -99 where the note before goes on; and its root.
fun void sing(int a, int b, int c, int root) {
    [a, b, c] @=> int notes[];
    pitch(root) / 2 => left.freq;
    pitch(root + 4 - (root == 2 || root == 9)) / 2 => right.freq;
    rock.keyOn();
    for (0 => int i; i < 3; i++) {
        if (notes[i] > -99) {
            pitch(notes[i]) => voice.freq;
            shape.keyOn();
        }
        if (i == 2) rock.keyOff();
        beat - 80::ms => now;
        if (i == 2 || notes[(i + 1) % 3] > -99) shape.keyOff();
        80::ms => now;
    }
    bar++;
}

fun void verse() {
    sing(4, 7, 12, 0);
    sing(11, -99, 7, 7);
    sing(9, 11, 12, 5);
    sing(7, -99, -99, 0);
    sing(5, 9, 12, 5);
    sing(11, 7, 4, 0);
    sing(2, 4, 5, 7);
    sing(4, -99, -99, 0);
}

fun void middle() {
    sing(9, 12, 16, 9);
    sing(14, -99, 12, 2);
    sing(11, 14, 17, 7);
    sing(16, -99, -99, 0);
}

verse();
verse();
middle();
verse();
middle();
verse();
for (0 => int i; i < 2; i++) {
    beat * 1.25 => beat;
    sing(5 - i * 3, 4 - i * 2, 2 - i * 2, 7);
}
sing(0, -99, -99, 0);
3::second => now;
