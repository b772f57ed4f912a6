int main() { return } $
