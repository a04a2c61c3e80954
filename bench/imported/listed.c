int list(const int *, ...);
int listed(const int *p) { return list(p, 1, 2); }
