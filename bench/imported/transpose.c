void transpose(int a[4][4]) {
  for (int i = 0; i < 4; i++)
    for (int j = 0; j < i; j++) {
      int t = a[i][j];
      a[i][j] = a[j][i];
      a[j][i] = t;
    }
}
