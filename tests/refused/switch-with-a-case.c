int main() { int x; switch (x) { case 1: x = 2; } }
