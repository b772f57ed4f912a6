int f(int p1, int p2, int p3, int p4, int p5, int p6, int p7, int p8) {
  int v1;
  int v2;
  int v3;
  int v4;
  int v5;
  int v6;
  int v7;
  int v8;
  int v9;
  int v10;
  int v11;
  int v12;
  int v13;
  int v14;
  int v15;
  int v16;
  int v17;
}
int main() {}
