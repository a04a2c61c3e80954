struct node {
  int key;
  struct node *next;
};
const struct node *list_find(const struct node *p, int key, int most) {
  while (p && most-- > 0) {
    if (p->key == key)
      return p;
    p = p->next;
  }
  return 0;
}
