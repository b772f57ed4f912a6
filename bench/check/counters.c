int main() {
    int x = 0;
    int y = 0;
    while (input() > 0) {
        x++;
        y++;
    }
    assert(x == y);
    assert(x + y != 8);
    return 0;
}
