/* The lock is free at each turn, however many turns the inputs ask for. */
int main() {
  int held = 0;
  while (input() > 0) {
    assert(held == 0);
    held = 1;
    if (input() > 3)
      held = 0;
    else
      held = held - 1;
  }
  return held;
}
