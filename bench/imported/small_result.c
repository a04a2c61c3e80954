short small_result(int a, int b) { return a - b; }
