int main() { int x; int y; x *= y; }
