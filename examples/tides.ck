// Tides: chords swell and ebb, each note of two sines that are a little apart, so that they beat. Five
// chords, the last one longest.
class Wave {
    SinOsc low => Envelope swell => dac;
    SinOsc high => swell;
    0.07 => swell.gain;
    0 => swell.value;

    fun void rise(float pitch, float apart, dur length) {
        pitch => low.freq;
        pitch + apart => high.freq;
        1.0 => swell.target;
        length * 0.45 => swell.duration;
        swell.keyOn();
        length * 0.55 => now;
        length * 0.45 => swell.duration;
        swell.keyOff();
        length * 0.45 => now;
    }
}

fun void tide(float pitch, float apart, dur length) {
    Wave wave;
    wave.rise(pitch, apart, length);
}

fun void chord(float root, float third, float fifth, dur length) {
    spork ~ tide(root / 2, 0.31, length);
    spork ~ tide(root, 0.73, length);
    spork ~ tide(third, 1.1, length);
    spork ~ tide(fifth, 1.37, length);
    spork ~ tide(root * 2, 1.9, length);
    length => now;
}

chord(220.0, 261.63, 329.63, 16::second);
chord(174.61, 220.0, 261.63, 16::second);
chord(196.0, 246.94, 293.66, 14::second);
chord(164.81, 207.65, 246.94, 14::second);
chord(220.0, 277.18, 329.63, 24::second);
