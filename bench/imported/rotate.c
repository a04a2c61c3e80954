unsigned rotate(unsigned a, unsigned b) {
  a = (a << 7) | (a >> 25);
  b = (b << 13) | (b >> 19);
  return a ^ b;
}
