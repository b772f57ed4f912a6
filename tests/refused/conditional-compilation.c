#if 1
int main() {}
#endif
