int small_counter(int n) {
  unsigned short s = 0;
  for (unsigned short k = 0; k < (unsigned short)n; k++)
    s = s * 31 + k;
  return s;
}
