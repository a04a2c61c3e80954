int switch_wide(int x) {
  switch (x) {
  case -5:
    return 1;
  case 100000:
    return 2;
  case -100000:
    return 3;
  case 7:
  case 8:
    return 4;
  default:
    return x * 2;
  }
}
