int main() { int x = input(); return x > 3 ? x : 3; }
