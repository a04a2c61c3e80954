struct tree {
  int key;
  struct tree *left, *right;
};
int tree_find(const struct tree *t, int key, int most) {
  int d = 0;
  while (t && d < most && t->key != key) {
    t = key < t->key ? t->left : t->right;
    d++;
  }
  return d;
}
