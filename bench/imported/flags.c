unsigned flags(int a, int b) {
  return (a == b) | (a < b) << 1 | (a <= b) << 2 | ((unsigned)a < (unsigned)b) << 3 | (a != 7) << 4;
}
