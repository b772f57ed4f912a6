enum colour { RED, GREEN };
int main() {}
