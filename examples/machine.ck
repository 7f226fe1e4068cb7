// A machine that is started wheel by wheel: a drum, a hiss, a click and two tones, each with a cycle of
// its own length. It runs, loses its wheels again, and the drum has the last word.
120::ms => dur tick;
0 => int wheels;
1 => int runs;

fun void drum() {
    SinOsc skin => Envelope hit => dac;
    0.4 => hit.gain;
    0 => hit.value;
    while (runs) {
        1.0 => hit.value;
        3 * tick => hit.duration;
        hit.keyOff();
        for (150 => int p; p > 45; p - 7 => p) {
            p => skin.freq;
            4 * tick / 15 => now;
        }
    }
}

fun void hiss() {
    Noise air => OneZero thin => Envelope hit => dac;
    1.0 => thin.zero;
    0.08 => hit.gain;
    0 => hit.value;
    while (runs) {
        if (wheels >= 2) {
            1.0 => hit.value;
            50::ms => hit.duration;
            hit.keyOff();
        }
        tick * 2 => now;
    }
}

fun void click() {
    Impulse tap => BiQuad wood => dac;
    1.0 => wood.b0;
    -1.6 => wood.a1;
    0.9 => wood.a2;
    0.05 => wood.gain;
    while (runs) {
        if (wheels >= 3) 1.0 => tap.next;
        tick * 3 => now;
    }
}

fun void tone(float pitch, int cycle, int wheel) {
    PulseOsc wave => OnePole soft => ADSR shape => dac;
    0.3 => wave.width;
    0.9 => soft.pole;
    pitch => wave.freq;
    shape.set(5::ms, 60::ms, 0.2, 80::ms);
    0.14 => shape.gain;
    while (runs) {
        if (wheels >= wheel) {
            shape.keyOn();
            tick * 0.8 => now;
            shape.keyOff();
            tick * (cycle - 0.8) => now;
        } else cycle * tick => now;
    }
}

spork ~ drum();
spork ~ hiss();
spork ~ click();
spork ~ tone(164.81, 5, 4);
spork ~ tone(246.94, 7, 5);
60 * tick => dur stretch;
for (1 => wheels; wheels < 6; wheels++) stretch => now;
stretch => now;
for (5 => wheels; wheels > 0; wheels--) stretch => now;
0 => runs;
2::second => now;
