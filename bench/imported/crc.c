unsigned crc(const unsigned *x, int n) {
  unsigned c = 0xffffffffu;
  for (int i = 0; i < n; i++) {
    c ^= x[i];
    for (int k = 0; k < 8; k++)
      c = (c >> 1) ^ (c & 1 ? 0xEDB88320u : 0);
  }
  return ~c;
}
