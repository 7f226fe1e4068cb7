// Three beats against four: a high block and a low one, which meet once in each bar.
class Block {
    TriOsc tone => Gain shape => dac;
    0 => shape.gain;

    // A hit is loud at once and dies away in steps of two milliseconds.
    fun void hit() {
        0.4 => shape.gain;
        while (shape.gain() > 0.001) {
            2::ms => now;
            shape.gain() * 0.9 => shape.gain;
        }
        0 => shape.gain;
    }
}

fun void beat(float freq, int beats, dur bar) {
    Block block;
    freq => block.tone.freq;
    while (true) {
        spork ~ block.hit();
        bar / beats => now;
    }
}

1200::ms => dur bar;
spork ~ beat(660, 3, bar);
spork ~ beat(396, 4, bar);
8 * bar => now;
