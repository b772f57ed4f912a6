int main() {
  int apples = 12;
  int eaten = 5;
  int left = apples - eaten;
  assert(left == 7);
  left = left - 1;
  assert(left == 7);
  return left;
}
