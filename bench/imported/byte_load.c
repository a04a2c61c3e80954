int byte_load(const unsigned char *x) { return x[0] + x[1]; }
