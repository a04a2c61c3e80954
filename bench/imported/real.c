float real(float a, float b) { return a * b; }
