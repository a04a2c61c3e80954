struct ring {
  int first, count;
  int items[8];
};
int ring_put(struct ring *r, int v) {
  if (r->count >= 8)
    return 0;
  r->items[(r->first + r->count) & 7] = v;
  r->count++;
  return 1;
}
