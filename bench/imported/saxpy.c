void saxpy(int *y, const int *x, int a, int n) {
  for (int i = 0; i < n; i++)
    y[i] += a * x[i];
}
