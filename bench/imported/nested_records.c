struct outer {
  struct inner {
    int a;
    short b;
    char c;
    int d;
  } x;
  int y;
  struct inner z[3];
};
int nested_records(const struct outer *o, int k) { return o->z[k].d + o->x.d + o->y + o->z[2].a; }
