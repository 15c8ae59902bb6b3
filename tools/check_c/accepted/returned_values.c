// what a function gives is converted to its type, and what is dropped is still made

unsigned char f(void) { return -1; } signed char g(void) { return 255; } int main(void) { return f() + g(); }

unsigned short f(int x) { return x << 10; } int main(void) { return f(65) >> 10; }

int n; int f(void) { return ++n; } void g(void) { f(); f(); return; } void h(void) { return g(); } int main(void) { g(); h(); return n; }

unsigned f(int x) { return x; } int g(unsigned x) { return x; } int main(void) { return (f(-1) > 5) + (g(4294967295u) < 0) * 2 + (f(-1) / 2 > 9) * 4; }

int f(int x) { if (x > 3) return x > 5 ? 1 : 2; return x && x != 2; } int main(void) { return f(9) + f(4) * 2 + f(2) * 8 + f(1) * 16; }

short f(short x) { return x *= 2; } char g(int x) { return x++; } int main(void) { return (f(20000) == -25536) + (g(200) == -56) * 2; }
