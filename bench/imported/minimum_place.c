int minimum_place(const int *x, int n) {
  int p = 0;
  for (int i = 1; i < n; i++)
    if (x[i] < x[p])
      p = i;
  return p;
}
