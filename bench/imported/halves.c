int halves(const int *x, int n) {
  int s = 0;
  for (int i = 0; i < n; i++)
    s += x[i] / 4 + x[i] % 8;
  return s;
}
