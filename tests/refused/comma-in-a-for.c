int main() { int i; int j; for (i = 0, j = 0; i < 3; i++) ; }
