void prefix(int *x, int n) {
  int s = 0;
  for (int i = 0; i < n; i++) {
    s += x[i];
    x[i] = s;
  }
}
