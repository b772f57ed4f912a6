int input() {}
int main() {}
