int trailing(unsigned x) { return __builtin_ffs(x); }
