int main() { const int x = 3; }
