/* A turnstile: nobody leaves who isn't inside. */
int inside;
int opened = 1;

void turn(int in) {
  if (opened == 0) return;
  if (in) inside++;
  else if (inside > 0) inside--;
}

int main() {
  turn(input());
  turn(input());
  assert(inside >= 0);
  opened = input();
  turn(1);
  assert(inside <= 2);
  return inside;
}
