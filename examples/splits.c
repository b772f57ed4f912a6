/* An even number is never 11: no row says so, and splits don't end. */
int main() {
  int x = input();
  int y = input();
  int z = input();
  assert(4 * x + 6 * y + 10 * z != 11);
  return 0;
}
