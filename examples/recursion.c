/* Counts the input down by calls: fails where the input is 3. */
int depth(int n) {
    if (n <= 0)
        return 0;
    return 1 + depth(n - 1);
}

int main() {
    int x = input();
    assume(x >= 0);
    int y = depth(x);
    assert(y != 3);
    return y;
}
