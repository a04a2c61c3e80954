void reverse_words(int *x, int n) {
  for (int i = 0, j = n - 1; i < j; i++, j--) {
    int t = x[i];
    x[i] = x[j];
    x[j] = t;
  }
}
