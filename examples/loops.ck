// waits 1, 2 and 3 samples
0 => int i;
while (i < 3) {
    (i + 1)::samp => now;
    i + 1 => i;
}
