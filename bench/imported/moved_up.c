void moved_up(int *p, int n) {
  for (int k = n - 1; k > 0; k--)
    p[k] = p[k - 1];
}
