unsigned bytes_of(unsigned x) {
  unsigned char a = x, b = x >> 8;
  return (unsigned)(a + b) * (unsigned short)x;
}
