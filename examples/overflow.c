int main() {
  int most = 9223372036854775807;
  most = most + 1;
  assert(most == 0);
  return 0;
}
