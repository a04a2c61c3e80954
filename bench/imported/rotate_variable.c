unsigned rotate_variable(const unsigned *p) {
  unsigned s = 0;
  for (unsigned k = 0; k < 31; k++)
    s ^= p[k] << k | p[k] >> (-k & 31);
  return s;
}
