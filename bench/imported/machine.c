int machine(const int *code, int n) {
  int a = 0, b = 1;
  for (int i = 0; i < n; i++)
    switch (code[i] & 7) {
    case 0:
      a += b;
      break;
    case 2:
      b = a * 3;
      break;
    case 5:
      a = b - a;
      break;
    default:
      b++;
    }
  return a + b;
}
