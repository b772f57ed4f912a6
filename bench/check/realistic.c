/* A small file as people write them: three procedures, a loop, inputs. */
#include <assert.h>
int input(void);
void assume(int e);

/* keeps a between 0 and 10 */
int clamp(int a) {
  if (a < 0) return 0;
  else if (a > 10) return 10;
  return a;
}

int sum_to(int n) {
  int s = 0;
  for (int i = 0; i < n; i++) s += 2;
  assert(s >= 0);
  return s;
}

int pick(int a, int b) {
  if (a > b && a != 7) { return a; }
  return b;
}

int main(void) {
  int a = clamp(input()); // first input
  assert(a >= 0 && a <= 10);
  int x = input();
  assume(x > 40);
  int m = pick(3, x);
  assert(m != 41 || a != 5);
  int s = sum_to(a);
  assert(s >= 0);
  return 0;
}
