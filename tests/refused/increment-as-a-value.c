int f(int i) { return i; }
int main() { int i; f(i++); }
