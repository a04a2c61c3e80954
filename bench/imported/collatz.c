int collatz(unsigned n, int most) {
  int c = 0;
  while (n > 1 && c < most) {
    n = n & 1 ? 3 * n + 1 : n >> 1;
    c++;
  }
  return c;
}
