// Bells that any class below can tune. A low and a high one are struck together, four times; each
// strike is loud at once and dies away in steps.
public class Bell {
    SinOsc tone => Gain shape => dac;
    SinOsc rim => Gain thin => shape;
    0.4 => thin.gain;
    0 => shape.gain;

    fun float pitch(int step) { return 220.0 * step; }

    fun void strike(int step) {
        pitch(step) => tone.freq;
        2.76 * pitch(step) => rim.freq;
        0.3 => shape.gain;
        repeat (50) {
            5::ms => now;
            shape.gain() * 0.93 => shape.gain;
        }
        0 => shape.gain;
    }
}

class High extends Bell {
    fun float pitch(int step) { return 660.0 + 110 * step; }
}

Bell low;
High high;
for (1 => int i; i < 5; i++) {
    spork ~ low.strike(i);
    high.strike(i);
    100::ms => now;
}
