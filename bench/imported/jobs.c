int job(int, int);
int jobs(const int *p, int n) {
  int s = 0;
  for (int k = 0; k < n; k++)
    s = job(s, p[k]) - s;
  return s;
}
