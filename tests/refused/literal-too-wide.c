int main() { return 9223372036854775808; }
