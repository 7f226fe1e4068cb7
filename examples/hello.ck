<<< "one" >>>;
1::second => now;
<<< "two at", now >>>;
