unsigned gcd(unsigned a, unsigned b) {
  while (a != b) {
    if (a > b)
      a -= b;
    else
      b -= a;
    if (!a || !b)
      break;
  }
  return a;
}
