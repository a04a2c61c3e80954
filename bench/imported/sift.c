void sift(int *a, int n, int k) {
  for (;;) {
    int left = 2 * k + 1, most = k;
    if (left < n && a[left] > a[most])
      most = left;
    if (left + 1 < n && a[left + 1] > a[most])
      most = left + 1;
    if (most == k)
      return;
    int t = a[k];
    a[k] = a[most];
    a[most] = t;
    k = most;
  }
}
