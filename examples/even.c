/* Two procedures that call each other, for as long as the input says. */
int odd(int n);

int even(int n) {
    if (n <= 0)
        return 1;
    return odd(n - 1);
}

int odd(int n) {
    if (n <= 0)
        return 0;
    return even(n - 1);
}

int main() {
    int r = even(input());
    assert(r == 0 || r == 1);
    return 0;
}
