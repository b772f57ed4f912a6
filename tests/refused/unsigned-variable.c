int main() { unsigned x; }
