int main() { int a; int b; return a, b; }
