int both(int a, int b) { return (a > b) ^ (b > 100); }
