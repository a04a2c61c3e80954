int compare(const int *x, const int *y, int n) {
  for (int i = 0; i < n; i++)
    if (x[i] != y[i])
      return x[i] < y[i] ? -1 : 1;
  return 0;
}
