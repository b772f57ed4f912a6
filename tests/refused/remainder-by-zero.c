int main() { int x; x %= 0; }
