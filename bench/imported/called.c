int price(int);
int called(const int *x, int n) {
  int s = 0;
  for (int i = 0; i < n; i++)
    s += price(x[i]);
  return s;
}
