int signed_bytes(int x) {
  signed char a = x;
  short b = x >> 4;
  return a < b ? a * 2 : b + a;
}
