int small(short, signed char, unsigned short, _Bool);
int small_arguments(int a, int b) { return small(a, b, a + b, a > b); }
