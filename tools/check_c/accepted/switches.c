// switch: cases that fall through, blocks, what is switched has effects, cases that are expressions

int f(int x) { switch (x) { case 1: return 5; case 2: case 3: x++; break; default: x = 9; } return x; } int main(void) { return f(1) + f(2) * 10 + f(7); }

enum { A = 1, B }; int main(void) { int x = 2; switch (x++) { case A: return 1; case B: { int y = x; return y; } } return 0; }

int main(void) { int s = 0; for (int i = 0; i < 5; i++) { switch (i) { case 1: continue; case 3: break; default: s += i; } s += 10; } return s; }

int f(int x) { int s = 0; switch (x) { default: s += 1; case 4: s += 2; case 5: s += 4; break; case 6: s += 8; } return s; } int main(void) { return f(0) + f(4) * 2 + f(5) * 4 + f(6) * 8; }

int f(unsigned x) { switch (x) { case -1: return 1; case 0x80000000: return 2; case 'a' + 1: return 3; } return 4; } int main(void) { return f(4294967295u) + f(2147483648u) * 4 + f(98) * 16 + f(5); }

int f(signed char c) { switch (c) { case -1: return 1; case 255: return 2; default: return 3; } } int main(void) { return f(255) * 10 + f(1); }

int n; int f(void) { return n++; } int main(void) { int s = 0; while (n < 6) switch (f() % 3) { case 0: s += f(); break; case 1: if (f() > 2) break; s += 20; default: s++; } return s; }

int main(void) { int x = 3, s = 0; switch (x) { int y; case 3: y = 4; s = y; switch (y) { case 4: s += 10; break; case 3: s = 0; } s++; break; case 4: s = 99; } return s; }

int main(void) { int i = 0, s = 0; do { switch (i) { case 2: continue; case 5: break; default: s += i; } s++; } while (i++ < 6); return s; }

int main(void) { int s = 1; switch (s) case 1: s = 8; switch (s) { } switch (s) { default: ; } return s; }
