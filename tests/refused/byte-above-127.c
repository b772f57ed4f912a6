int main() { int ä; }
