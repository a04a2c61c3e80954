int search(const int *x, int n, int k) {
  int low = 0, high = n;
  while (low < high) {
    int mid = (low + high) >> 1;
    if (x[mid] < k)
      low = mid + 1;
    else
      high = mid;
  }
  return low;
}
