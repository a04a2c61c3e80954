int tally(const int *p, int n) {
  _Bool odd = 0;
  int s = 0;
  for (int k = 0; k < n; k++) {
    odd ^= p[k] & 1;
    if (odd)
      s += p[k];
  }
  return s + odd;
}
