int main() { char c; }
