typedef int length;
int main() {}
