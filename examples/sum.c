int main() {
  int x = 3;
  x = x + 4;
  assert(x == 7);
  return 0;
}
