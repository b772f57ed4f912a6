int main() {
    int x = 0;
    int sum = input();
    while (x < 10) {
        sum = sum + x;
        x++;
    }
    assert(sum != 145);
    return 0;
}
