/* The rows of this program are beyond what the solver adds up. */
int main() {
  int x = input();
  int y = input();
  if (x * 3037000500 + y * 3037000499 == 1)
    assert(x != 7);
  return 0;
}
