int quotients(int a, int b) { return b == 0 ? 0 : a / b * 3 + a % b + a / 7; }
