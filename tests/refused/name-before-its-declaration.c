int main() { x = 1; int x; }
