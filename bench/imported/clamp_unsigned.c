unsigned clamp_unsigned(unsigned x, unsigned low, unsigned high) {
  unsigned m = x < low ? low : x;
  return m > high ? high : m;
}
