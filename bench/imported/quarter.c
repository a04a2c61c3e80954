void quarter(unsigned *s) {
  unsigned a = s[0], b = s[1], c = s[2], d = s[3];
  a += b;
  d ^= a;
  d = (d << 16) | (d >> 16);
  c += d;
  b ^= c;
  b = (b << 12) | (b >> 20);
  a += b;
  d ^= a;
  d = (d << 8) | (d >> 24);
  s[0] = a;
  s[1] = b;
  s[2] = c;
  s[3] = d;
}
