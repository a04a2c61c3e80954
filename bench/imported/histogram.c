void histogram(int *h, const int *x, int n) {
  for (int i = 0; i < n; i++)
    h[x[i] & 15]++;
}
