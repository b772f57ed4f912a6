int main() {
    int held = 0;
    int old = 0;
    int new = 0;
    do {
        assert(held == 0);
        held = 1;
        old = new;
        if (input() > 0) {
            held = 0;
            new++;
        }
    } while (new != old);
    assert(held == 1);
    return 0;
}
