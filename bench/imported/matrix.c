void matrix(int *c, const int *a, const int *b) {
  for (int i = 0; i < 3; i++)
    for (int j = 0; j < 3; j++) {
      int s = 0;
      for (int k = 0; k < 3; k++)
        s += a[3 * i + k] * b[3 * k + j];
      c[3 * i + j] = s;
    }
}
