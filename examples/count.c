/* Only the two counters together tell that the assertion holds. */
int main() {
  int n = input();
  assume(n >= 0);
  int up = 0;
  int down = n;
  while (down > 0) {
    up = up + 1;
    down = down - 1;
  }
  assert(up == n);
  return 0;
}
