struct node {
  int key;
  struct node *next;
};
int list_length(const struct node *p, int most) {
  int n = 0;
  while (p && n < most) {
    p = p->next;
    n++;
  }
  return n;
}
