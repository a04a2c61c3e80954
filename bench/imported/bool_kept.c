int bool_kept(const int *x, int n) {
  int seen = 0;
  for (int i = 0; i < n; i++) {
    _Bool here = x[i] == 5;
    if (seen && here)
      return i;
    seen = here;
  }
  return -1;
}
