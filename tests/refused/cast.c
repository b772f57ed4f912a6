int main() { return (int) 3; }
