struct point { int x; int y; };
int main() {}
