int main() {
    int right = 0;
    if (input() == 31) right++;
    if (input() == -7) right++;
    if (input() == 1000000007) right++;
    if (input() == 0) right++;
    if (input() == 42) right++;
    assert(right <= 5);
    assert(right != 5);
    return 0;
}
