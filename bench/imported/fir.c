int fir(const int *x, const int *h) {
  int s = 0;
  for (int i = 0; i < 8; i++)
    s += x[i] * h[7 - i];
  return s;
}
