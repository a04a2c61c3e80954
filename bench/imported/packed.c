struct __attribute__((packed)) packed_record {
  char a;
  int b;
};
int packed(const struct packed_record *p) { return p->b; }
