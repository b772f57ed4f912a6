int g;
int g;
int main() {}
