int absolute(const int *x, int n) {
  int s = 0;
  for (int i = 0; i < n; i++)
    s += x[i] < 0 ? -x[i] : x[i];
  return s;
}
