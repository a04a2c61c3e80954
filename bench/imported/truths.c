int truths(int a, int b, int c, int d) { return ((a < b) ^ (c < d)) & ((a != c) | (b == d)); }
