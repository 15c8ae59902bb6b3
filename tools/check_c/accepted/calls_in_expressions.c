// a call in an expression is made before its statement, from left to right, and what stands left of it is kept

int n; int f(void) { n++; return n; } int main(void) { int a = f() * 10; return a + f(); }

int r; int f(int x) { return x * 2; } int main(void) { r = f(f(3)) + f(1); return r; }

int a[4]; int at; int next(void) { return at++; } int main(void) { a[next()] = 7; a[next()] = 9; return a[0] + a[1] * 16; }

int f(int x) { return x - 1; } int main(void) { int s = 0; for (int i = 5; f(i) > 0; i--) s += f(i); return s; }

int n; int f(void) { n += 3; return n; } int main(void) { int x = 1; x += f(); x = x - f() - 1; return x & 255; }

int f(int a, int b) { return a - b; } int main(void) { return f(f(9, 2), f(3, 1)); }

char c; char f(void) { return 200; } int main(void) { c = f() + 1; return (f() < 0) * 2 + (c < 0); }

int f(int x) { return x * x; } int main(void) { int x = 5; int y = x + f(x) - x * f(2); return y; }

int a[3] = {1, 2, 3}; int f(int i) { a[i] += 10; return i; } int main(void) { int y = a[f(1)] * 100; return y + a[1]; }

unsigned char f(int x) { return x; } int main(void) { return f(300) + f(-1) + -f(1); }

int f(int a, int b, int c) { return a * 100 + b * 10 + c; } int g(int x) { return x + 1; } int main(void) { return f(g(0), g(g(0)), g(g(g(0)))); }

void f(int *p, int by) { *p += by; } int g(int x) { return x * 3; } int x; int main(void) { f(&x, g(2) + g(3)); f(&x, -g(1)); return x; }
