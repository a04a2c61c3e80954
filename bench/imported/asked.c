_Bool ask(int);
_Bool asked(int a) { return !ask(a) || a > 3; }
