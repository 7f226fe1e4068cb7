// A relay: six runners stand in a ring; each plays its note and hands the baton to the next by an event.
// Every round is a little quicker, and the last hand-over ends in a chord.
class Runner {
    Event baton;
    SinOsc tone => ADSR shape => dac;
    SinOsc above => shape;
    shape.set(3::ms, 300::ms, 0.2, 400::ms);
    0.12 => shape.gain;
    Runner @ next;
    float pitch;

    fun void run() {
        pitch => tone.freq;
        pitch * 2.004 => above.freq;
        while (true) {
            baton => now;
            shape.keyOn();
            step => now;
            shape.keyOff();
            if (left > 0) {
                left - 1 => left;
                next.baton.signal();
            } else finish.signal();
        }
    }
}

180::ms => dur step;
1 => int left;
Event finish;

[220.0, 261.63, 329.63, 392.0, 440.0, 329.63] @=> float pitches[];

fun Runner runner(float pitch) {
    Runner r;
    pitch => r.pitch;
    return r;
}

runner(pitches[0]) @=> Runner @ first;
first @=> Runner @ last;
for (1 => int i; i < pitches.size(); i++) {
    runner(pitches[i]) @=> Runner @ r;
    r @=> last.next;
    spork ~ last.run();
    r @=> last;
}
first @=> last.next;
spork ~ last.run();
me.yield();

for (0 => int round; round < 28; round++) {
    pitches.size() * 3 - 1 => left;
    first.baton.signal();
    finish => now;
    step * 0.93 => step;
    if (round == 11) 180::ms => step;
}
first @=> Runner @ each;
repeat (6) {
    each.shape.keyOn();
    120::ms => now;
    each.next @=> each;
}
2::second => now;
repeat (6) {
    each.shape.keyOff();
    each.next @=> each;
}
1::second => now;
