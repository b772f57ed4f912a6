void f() {}
int main() { return 1 + f(); }
