unsigned masks(unsigned x) { return (x & 0xff) | ((x >> 8) & 0xff00) | ((x << 8) & 0xff0000) | (x << 24); }
