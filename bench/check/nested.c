int main() {
    int p = 0;
    for (int i = 0; i < 3; i++)
        for (int j = 0; j < 4; j++) p++;
    assert(p == 12);
    return 0;
}
