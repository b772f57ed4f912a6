/* A level from 0 to 100, of what a sensor reads. */
int clamp(int n) {
  if (n < 0) return 0;
  if (n > 100) return 100;
  return n;
}

int main() {
  int level = clamp(input());
  assert(level >= 0);
  assert(level <= 100);
  return level;
}
