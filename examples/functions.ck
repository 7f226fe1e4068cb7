// Waits of 1, 2 and 3 samples: wakes at 0, 1, 3 and 6.
fun int next(int i) { return i + 1; }

0 => int i;
while (i < 3) {
    next(i)::samp => now;
    next(i) => i;
}
