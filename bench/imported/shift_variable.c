int shift_variable(int x, int n) { return (x << (n & 31)) + (x >> (n & 31)); }
