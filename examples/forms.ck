// A tune in a string: a letter is a note, and the digit behind it says how many beats it lasts.
class Scale {
    220.0 => float base;
    fun float tone(int step) { return base * (24 + step) / 24; }
    fun static int isLetter(int byte) { return byte >= "a".charAt(0); }
    fun static int beats(int byte) { return byte - "0".charAt(0); }
}

class High extends Scale {
    2 *=> base;
    fun float tone(int step) { return base * (12 + step) / 12; }
}

new High @=> Scale scale;
"a2c1e1d3" => string tune;
100::ms => dur beat;
dur total; int notes;

for (0 => int i; i < tune.length(); i++) {
    i => tune.charAt => int byte;
    if (scale.isLetter(byte)) {
        ++notes;
        <<< tune.substring(i, 1), byte - 97 => scale.tone, now >>>;
    } else {
        (byte => scale.beats) * beat +=> total;
        (byte => scale.beats) * beat => now;
    }
}
<<< notes, "notes,", total / beat, "beats" >>>;
