void tea(unsigned *v, const unsigned *k) {
  unsigned a = v[0], b = v[1], s = 0;
  for (int i = 0; i < 8; i++) {
    s += 0x9e3779b9u;
    a += ((b << 4) + k[0]) ^ (b + s) ^ ((b >> 5) + k[1]);
    b += ((a << 4) + k[2]) ^ (a + s) ^ ((a >> 5) + k[3]);
  }
  v[0] = a;
  v[1] = b;
}
