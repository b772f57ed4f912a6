int g = 1 + 1;
int main() {}
