int twice(int(*unused), int a) { return a + a; }
