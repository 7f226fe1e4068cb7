class Note extends Event { int pitch; }
class Voice {
  SqrOsc o => ADSR e => Echo x => dac;
  0.2 => o.gain;
  e.set(10::ms, 20::ms, 0.5, 50::ms);
  200::ms => x.max; 100::ms => x.delay; 0.3 => x.mix;
  fun void play(int p) { p => o.freq; e.keyOn(); 100::ms => now; e.keyOff(); }
}
Note n;
fun void listen(int more) {
  Voice v;
  while (true) { n => now; v.play(n.pitch + more); 100::ms => now; }
}
spork ~ listen(0);
spork ~ listen(110);
me.yield();
[220, 330, 440, 330] @=> int tune[];
for (0 => int i; i < 8; i++) {
  tune[i % 4] => n.pitch;
  n.broadcast();
  250::ms => now;
}
<<< "done", now / second >>>;
