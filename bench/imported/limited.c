unsigned limited(unsigned a, unsigned b, unsigned c) {
  unsigned less = a > b ? a - b : 0, sum = less + c;
  return sum < less ? -1u : sum;
}
