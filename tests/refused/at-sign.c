int main() { @ }
