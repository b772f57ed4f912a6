int f() {}
int main() { f(1); }
