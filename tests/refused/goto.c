int main() { goto end; }
