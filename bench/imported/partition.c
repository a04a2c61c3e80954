int partition(int *x, int n) {
  int p = x[n - 1], k = 0;
  for (int i = 0; i < n - 1; i++)
    if (x[i] <= p) {
      int t = x[i];
      x[i] = x[k];
      x[k++] = t;
    }
  x[n - 1] = x[k];
  x[k] = p;
  return k;
}
