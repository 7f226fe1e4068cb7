1::samp => now;
