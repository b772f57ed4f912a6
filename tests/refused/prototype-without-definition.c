int f(int);
int main() {}
