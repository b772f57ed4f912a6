int f(int a, int a) {}
int main() {}
