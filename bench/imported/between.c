int between(const int *x, int n, int low, int high) {
  int c = 0;
  for (int i = 0; i < n; i++)
    if (x[i] >= low && x[i] <= high)
      c++;
  return c;
}
