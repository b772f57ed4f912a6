/* Hours and minutes of a number of minutes. */
int main() {
  int all = input();
  int hours = all / 60;
  int minutes = all % 60;
  assert(minutes < 60);
  assert(minutes >= 0);
  return hours;
}
