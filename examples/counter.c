/* As count.c, with one counter in place of two. */
int main() {
  int n = input();
  assume(n >= 0);
  int up = 0;
  while (up < n) {
    up = up + 1;
  }
  assert(up == n);
  return 0;
}
