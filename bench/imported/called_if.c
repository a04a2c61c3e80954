int slow(int, int);
void note(int);
int called_if(const int *x, int n) {
  int s = 0;
  for (int i = 0; i < n; i++) {
    if (x[i] < 0)
      s += slow(x[i], s);
    else
      s += x[i];
  }
  note(s);
  return s;
}
