int main(void) { int a = 1; while (a < 10) a += a; return a; }
