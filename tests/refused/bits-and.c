int main() { int x = input(); return x & 1; }
