int likely(const int *p, int n) {
  int count = 0;
  for (int k = 0; k < n; k++)
    if (__builtin_expect(p[k] == 7, 0))
      count += p[k] * 3;
    else
      count++;
  return count;
}
