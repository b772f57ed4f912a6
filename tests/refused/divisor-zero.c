int main() { return 6 / 0; }
