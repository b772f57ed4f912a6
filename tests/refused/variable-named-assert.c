int main() { int assert; }
