static int calls;
int main() {}
