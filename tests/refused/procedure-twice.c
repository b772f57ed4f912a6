int f() {}
int f() {}
int main() {}
