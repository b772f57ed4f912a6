int f() {}
