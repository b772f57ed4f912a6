int main() { int x = input(); return x / 1099511627777; }
