unsigned power(unsigned b, unsigned e) {
  unsigned r = 1;
  while (e) {
    if (e & 1)
      r *= b;
    b *= b;
    e >>= 1;
  }
  return r;
}
