/* A procedure with a loop, called twice. */
int rest(int n) {
    while (n >= 5)
        n = n - 5;
    return n;
}

int main() {
    int a = rest(input());
    assert(a <= 4);
    int b = rest(input());
    assert(b != 3);
    return 0;
}
