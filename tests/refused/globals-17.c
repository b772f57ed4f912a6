int g1;
int g2;
int g3;
int g4;
int g5;
int g6;
int g7;
int g8;
int g9;
int g10;
int g11;
int g12;
int g13;
int g14;
int g15;
int g16;
int g17;
int main() {}
