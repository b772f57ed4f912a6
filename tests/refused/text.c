int main() { assert("text"); }
