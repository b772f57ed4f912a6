int main() { if (1) continue; }
