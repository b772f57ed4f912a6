/* The price of a parcel, by its weight: at most 60. */
int price(int kilos) {
    int p = 0;
    if (kilos > 2) p = p + 3;
    if (kilos > 5) p = p + 4;
    if (kilos > 10) p = p + 8;
    if (kilos > 20) p = p + 15;
    if (kilos > 40) p = p + 30;
    return p;
}

int main() {
    int a = price(input());
    int b = price(input());
    int c = price(input());
    int d = price(input());
    assert(a + b + c + d <= 240);
    return 0;
}
