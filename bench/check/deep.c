/* Three calls deep. */
int h(int a, int b) {
    assert(a != 2 || b != 40);
    return 0;
}

int g(int a, int b) {
    return h(a, b);
}

int f(int a, int b) {
    return g(a, b);
}

int main() {
    int a = input();
    int b = input();
    return f(a, b);
}
