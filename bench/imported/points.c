struct point {
  int x, y, z;
};
int points(const struct point *p, int n) {
  int s = 0;
  for (int i = 0; i < n; i++)
    s += p[i].x * p[i].y - p[i].z;
  return s;
}
