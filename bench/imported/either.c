int either(int a, int b, int c) { return (a > 3 && b < 7) || c == 2; }
