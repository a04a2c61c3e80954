struct record {
  int a, b, c, d;
};
void record_copied(struct record *to, const struct record *from) { *to = *from; }
