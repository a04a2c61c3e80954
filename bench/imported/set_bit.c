void set_bit(unsigned *words, int k) { words[k >> 5] |= 1u << (k & 31); }
