static const int squares[4] = {0, 1, 4, 9};
int table(int k) { return squares[k & 3]; }
