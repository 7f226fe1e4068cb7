// A conductor and two players, each a shred: the players hear the beat, and end with the conductor.
class Beat extends Event { int number; }

fun void play(string name, int steps[], Beat beat) {
    for (0 => int i; true; i++) {
        beat => now;
        <<< name, steps[i % steps.size()], "beat", beat.number >>>;
    }
}

Beat beat;
spork ~ play("low", [0, 5, 7], beat);
spork ~ play("high", [12, 16], beat);
me.yield();

for (1 => beat.number; beat.number <= 4; beat.number++) {
    beat.broadcast();
    250::ms => now;
}
<<< "end", now >>>;
