int main() { x = 1; return } 
