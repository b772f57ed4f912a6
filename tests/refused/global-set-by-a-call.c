int f() { return 3; }
int g = f();
int main() {}
