int main() { return 'a'; }
