struct list {
  struct list *next;
  int value;
};
struct list *list_reversed(struct list *p) {
  struct list *done = 0;
  while (p) {
    struct list *next = p->next;
    p->next = done;
    done = p;
    p = next;
  }
  return done;
}
