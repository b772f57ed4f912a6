int main() { f(); }
