/* 40 procedures, each of which is called once. */
int p1(int n) {
    if (n > 1)
        return 1;
    return n;
}

int p2(int n) {
    if (n > 2)
        return 2;
    return n;
}

int p3(int n) {
    if (n > 3)
        return 3;
    return n;
}

int p4(int n) {
    if (n > 4)
        return 4;
    return n;
}

int p5(int n) {
    if (n > 5)
        return 5;
    return n;
}

int p6(int n) {
    if (n > 6)
        return 6;
    return n;
}

int p7(int n) {
    if (n > 7)
        return 7;
    return n;
}

int p8(int n) {
    if (n > 8)
        return 8;
    return n;
}

int p9(int n) {
    if (n > 9)
        return 9;
    return n;
}

int p10(int n) {
    if (n > 10)
        return 10;
    return n;
}

int p11(int n) {
    if (n > 11)
        return 11;
    return n;
}

int p12(int n) {
    if (n > 12)
        return 12;
    return n;
}

int p13(int n) {
    if (n > 13)
        return 13;
    return n;
}

int p14(int n) {
    if (n > 14)
        return 14;
    return n;
}

int p15(int n) {
    if (n > 15)
        return 15;
    return n;
}

int p16(int n) {
    if (n > 16)
        return 16;
    return n;
}

int p17(int n) {
    if (n > 17)
        return 17;
    return n;
}

int p18(int n) {
    if (n > 18)
        return 18;
    return n;
}

int p19(int n) {
    if (n > 19)
        return 19;
    return n;
}

int p20(int n) {
    if (n > 20)
        return 20;
    return n;
}

int p21(int n) {
    if (n > 21)
        return 21;
    return n;
}

int p22(int n) {
    if (n > 22)
        return 22;
    return n;
}

int p23(int n) {
    if (n > 23)
        return 23;
    return n;
}

int p24(int n) {
    if (n > 24)
        return 24;
    return n;
}

int p25(int n) {
    if (n > 25)
        return 25;
    return n;
}

int p26(int n) {
    if (n > 26)
        return 26;
    return n;
}

int p27(int n) {
    if (n > 27)
        return 27;
    return n;
}

int p28(int n) {
    if (n > 28)
        return 28;
    return n;
}

int p29(int n) {
    if (n > 29)
        return 29;
    return n;
}

int p30(int n) {
    if (n > 30)
        return 30;
    return n;
}

int p31(int n) {
    if (n > 31)
        return 31;
    return n;
}

int p32(int n) {
    if (n > 32)
        return 32;
    return n;
}

int p33(int n) {
    if (n > 33)
        return 33;
    return n;
}

int p34(int n) {
    if (n > 34)
        return 34;
    return n;
}

int p35(int n) {
    if (n > 35)
        return 35;
    return n;
}

int p36(int n) {
    if (n > 36)
        return 36;
    return n;
}

int p37(int n) {
    if (n > 37)
        return 37;
    return n;
}

int p38(int n) {
    if (n > 38)
        return 38;
    return n;
}

int p39(int n) {
    if (n > 39)
        return 39;
    return n;
}

int p40(int n) {
    if (n > 40)
        return 40;
    return n;
}

int main() {
    int n = input();
    n = p40(n);
    n = p39(n);
    n = p38(n);
    n = p37(n);
    n = p36(n);
    n = p35(n);
    n = p34(n);
    n = p33(n);
    n = p32(n);
    n = p31(n);
    n = p30(n);
    n = p29(n);
    n = p28(n);
    n = p27(n);
    n = p26(n);
    n = p25(n);
    n = p24(n);
    n = p23(n);
    n = p22(n);
    n = p21(n);
    n = p20(n);
    n = p19(n);
    n = p18(n);
    n = p17(n);
    n = p16(n);
    n = p15(n);
    n = p14(n);
    n = p13(n);
    n = p12(n);
    n = p11(n);
    n = p10(n);
    n = p9(n);
    n = p8(n);
    n = p7(n);
    n = p6(n);
    n = p5(n);
    n = p4(n);
    n = p3(n);
    n = p2(n);
    n = p1(n);
    assert(n <= 1);
    return 0;
}
