void cleared(int *p, int n) {
  for (int k = 0; k < n; k++)
    p[k] = 0;
}
