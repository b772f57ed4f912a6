/* Two inputs: the pieces and the pay. The check of the rest is wrong. */
int main() {
  int pieces = input();
  int pay = input();
  assume(pieces > 0);
  assume(pay >= 0);
  int price = 7 * pieces;
  if (pieces >= 10)
    price = price - 5;
  if (pay >= price) {
    int rest = pay - price;
    assert(rest != 72 || pieces < 10);
  }
  return 0;
}
