int use(int *);
int local(int a) {
  int t[2] = {a, 1};
  return use(t);
}
