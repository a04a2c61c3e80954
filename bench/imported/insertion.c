void insertion(int *x, int n) {
  for (int i = 1; i < n; i++) {
    int v = x[i], j = i;
    while (j > 0 && x[j - 1] > v) {
      x[j] = x[j - 1];
      j--;
    }
    x[j] = v;
  }
}
