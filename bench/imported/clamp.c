void clamp(int *x, int n, int low, int high) {
  for (int i = 0; i < n; i++)
    x[i] = x[i] < low ? low : x[i] > high ? high : x[i];
}
