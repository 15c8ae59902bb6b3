// names of blocks hide those outside, also where what is hoisted goes before a statement

int main(void) { int x = 1; { int x = 5; x++; } return x; }

int x = 3; int f(int x) { { int x = 9; x--; } return x; } int main(void) { int y = x; int x = y + 1; return f(x) * 10 + y; }

int n; int f(int x) { return n += x; } int main(void) { int n = 5; if (f(n) > 2) { int n = f(1); if (n) { char n = 300; f(n); } } return f(0) + n; }

void f(int *p) { if (*p) return; *p = 4; } int main(void) { int x = 0; f(&x); f(&x); return x; }

int main(void) { int s = 0; { int a[2] = {1, 2}; s += a[1]; { int a[3] = {4, 5, 6}; s += a[2]; } s += a[0]; } return s; }

int main(void) { int a = 2, s = 0; while (a--) { int a = 10; s += a++; } for (int s = 0; s < 2; s++) ; return s; }

int sw1 = 4, sw2 = 5; int f(int sw3) { return sw3 + 1; } int main(void) { int sw4 = f(sw1) + f(sw2); return sw4 * 10 + sw1; }

int x = 1; int f(void) { return x; } int main(void) { int x = (x = 4, 5); return f() * 10 + x; }

int x = 7; int main(void) { int s = 0; for (int x = (x = 2, x + 1); x < 9; x++) s += x; { int *p = (p = &s, p); *p += 1; } { unsigned char x = (x = 255, ++x) + 3; s = s * 10 + x; } return s * 10 + x; }
