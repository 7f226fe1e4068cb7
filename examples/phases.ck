// Phases: two players repeat one figure of twelve notes. The first keeps its pace; the second gains one
// note in each eight rounds, until both are together again. Then both stop.
class Player {
    SawOsc tone => OnePole soft => ADSR shape => dac;
    0.85 => soft.pole;
    shape.set(3::ms, 70::ms, 0.3, 50::ms);
    0.25 => shape.gain;

    fun void strike(float pitch, dur length) {
        pitch => tone.freq;
        shape.keyOn();
        length * 0.6 => now;
        shape.keyOff();
        length * 0.4 => now;
    }
}

[329.63, 369.99, 493.88, 554.37, 587.33, 369.99, 329.63, 554.37, 493.88, 369.99, 587.33, 554.37] @=> float figure[];

fun void keep(int rounds, int quickly) {
    Player player;
    quickly => int gain;
    120::ms => dur step;
    // twelve notes and a thirteenth in the time of so many rounds
    if (gain) step * 96 / 97 => step;
    0 => int i;
    repeat (rounds * 12 + gain * rounds / 8) {
        player.strike(figure[i % 12], step);
        i++;
    }
}

spork ~ keep(56, 0);
2 * 12 * 120::ms => now;
spork ~ keep(54, 1);
54 * 12 * 120::ms => now;
1::second => now;
