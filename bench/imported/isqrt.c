unsigned isqrt(unsigned n) {
  unsigned r = 0, b = 1u << 30;
  while (b > n)
    b >>= 2;
  while (b) {
    if (n >= r + b) {
      n -= r + b;
      r = (r >> 1) + b;
    } else
      r >>= 1;
    b >>= 2;
  }
  return r;
}
