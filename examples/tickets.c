/* Two customers draw tickets and are served in turn: never both at once. */
int main() {
  int next = 0;
  int serving = 0;
  int first = 0;   /* 0 away, 1 waiting, 2 being served */
  int second = 0;
  int mine = 0;    /* the ticket of the first one */
  int yours = 0;   /* and of the second one */
  while (input() > 0) {
    if (input() > 0) {
      if (first == 0) { mine = next; next++; first = 1; }
      else if (first == 1) { if (mine == serving) first = 2; }
      else { serving++; first = 0; }
    } else {
      if (second == 0) { yours = next; next++; second = 1; }
      else if (second == 1) { if (yours == serving) second = 2; }
      else { serving++; second = 0; }
    }
    assert(first != 2 || second != 2);
  }
  return 0;
}
