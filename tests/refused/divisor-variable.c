int main() { int x = input(); int y = input(); return x / y; }
