int digits(unsigned n, int *d) {
  int k = 0;
  do {
    d[k++] = n % 10;
    n /= 10;
  } while (n);
  return k;
}
