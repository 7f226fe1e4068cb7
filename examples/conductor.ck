// A conductor's beat: a bass, chords and a lead play what the bar says whenever they hear it. Two
// verses, a middle and a verse, then the beat slows down and stops.
class Beat extends Event { int bar; int count; dur length; }

Beat beat;

fun float pitch(int step) {
    110.0 => float p;
    while (step > 0) { p * 1.0594631 => p; step--; }
    while (step < 0) { p / 1.0594631 => p; step++; }
    return p;
}

[0, 0, 5, 7, 0, 8, 5, 7] @=> int verse[];
[5, 5, 3, 3, 8, 8, 7, 7] @=> int middle[];

fun int root(int bar) {
    if (bar / 8 == 2) return middle[bar % 8];
    return verse[bar % 8];
}

fun void bass() {
    TriOsc tone => ADSR shape => dac;
    shape.set(4::ms, 120::ms, 0.4, 60::ms);
    0.28 => shape.gain;
    while (true) {
        beat => now;
        pitch(root(beat.bar) - 12 * (beat.count % 2)) / 2 => tone.freq;
        shape.keyOn();
        beat.length / 2 => now;
        shape.keyOff();
    }
}

fun void note(int above) {
    SinOsc tone => ADSR shape => dac;
    shape.set(30::ms, 200::ms, 0.5, 200::ms);
    0.09 => shape.gain;
    while (true) {
        beat => now;
        if (beat.count == 0) {
            pitch(root(beat.bar) + above) * 2 => tone.freq;
            shape.keyOn();
        }
        if (beat.count == 3) shape.keyOff();
    }
}

fun void lead() {
    SqrOsc tone => OnePole soft => ADSR shape => dac;
    shape.set(10::ms, 80::ms, 0.6, 80::ms);
    0.8 => soft.pole;
    0.06 => shape.gain;
    [12, 15, 19, 15, 17, 19, 22, 24] @=> int turn[];
    0 => int i;
    while (true) {
        beat => now;
        if (beat.bar >= 8) {
            pitch(root(beat.bar) + turn[i % 8]) * 2 => tone.freq;
            i + 1 + beat.bar % 2 => i;
            shape.keyOn();
            beat.length * 0.7 => now;
            shape.keyOff();
        }
    }
}

spork ~ bass();
spork ~ note(0);
spork ~ note(3);
spork ~ note(7);
spork ~ lead();
me.yield();
450::ms => beat.length;
for (0 => int bar; bar < 34; bar++) {
    for (0 => int count; count < 4; count++) {
        bar => beat.bar;
        count => beat.count;
        if (bar > 31) beat.length * 1.12 => beat.length;
        beat.broadcast();
        beat.length => now;
    }
}
2::second => now;
