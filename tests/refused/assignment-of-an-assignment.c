int main() { int x; int y; x = y = 3; }
