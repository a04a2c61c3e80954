void copied(int *restrict to, const int *restrict from, int n) {
  for (int k = 0; k < n; k++)
    to[k] = from[k];
}
