/* A procedure that is called at 50 places. */
int sign(int n) {
    if (n > 0)
        return 1;
    if (n < 0)
        return -1;
    return 0;
}

int main() {
    int s = 0;
    s = sign(input());
    s = sign(input());
    s = sign(input());
    s = sign(input());
    s = sign(input());
    s = sign(input());
    s = sign(input());
    s = sign(input());
    s = sign(input());
    s = sign(input());
    s = sign(input());
    s = sign(input());
    s = sign(input());
    s = sign(input());
    s = sign(input());
    s = sign(input());
    s = sign(input());
    s = sign(input());
    s = sign(input());
    s = sign(input());
    s = sign(input());
    s = sign(input());
    s = sign(input());
    s = sign(input());
    s = sign(input());
    s = sign(input());
    s = sign(input());
    s = sign(input());
    s = sign(input());
    s = sign(input());
    s = sign(input());
    s = sign(input());
    s = sign(input());
    s = sign(input());
    s = sign(input());
    s = sign(input());
    s = sign(input());
    s = sign(input());
    s = sign(input());
    s = sign(input());
    s = sign(input());
    s = sign(input());
    s = sign(input());
    s = sign(input());
    s = sign(input());
    s = sign(input());
    s = sign(input());
    s = sign(input());
    s = sign(input());
    s = sign(input());
    assert(s <= 1);
    assert(s != -1);
    return 0;
}
