struct tree {
  int key;
  struct tree *left, *right;
};
void tree_insert(struct tree **at, struct tree *new) {
  while (*at)
    at = new->key < (*at)->key ? &(*at)->left : &(*at)->right;
  *at = new;
}
