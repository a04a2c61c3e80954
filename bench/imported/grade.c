int grade(int x) {
  switch (x) {
  case 1:
    return 10;
  case 5:
    return 7;
  case 9:
    return -3;
  case 20:
    return 4;
  default:
    return 0;
  }
}
