int main() { int x; x = x * x; }
