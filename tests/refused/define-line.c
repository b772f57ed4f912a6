#define N 10
int main() { return N; }
