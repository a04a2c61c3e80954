int unsigned_relations(const unsigned *x, int n, unsigned k) {
  int c = 0;
  for (int i = 0; i < n; i++) {
    if (x[i] <= k)
      c += 1;
    if (x[i] > 100u)
      c += 2;
    if (x[i] >= k)
      c += 4;
  }
  return c;
}
