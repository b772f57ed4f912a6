int main(int a) {}
