int turned(int x, int y) {
  int z = 0;
  for (int k = 0; k < 8; k++) {
    int dx = x >> k, dy = y >> k;
    if (y > 0)
      x += dy, y -= dx, z += 1 << (8 - k);
    else
      x -= dy, y += dx, z -= 1 << (8 - k);
  }
  return z;
}
