int f() { return main(); }
int main() {}
