// ?: evaluates one side, and both sides have one type

int main(void) { int a = 3; return a > 2 ? a * 2 : a; }

unsigned u; int main(void) { int a = -1; u = a < 0 ? a : 1u; return u > 5; }

int n; int f(int x) { n += x; return n; } int main(void) { int k = n ? f(1) : f(2); return k * 10 + (k > 1 ? k > 2 ? 3 : 2 : 1); }

int a[2], b[2]; int main(void) { int *p; int c = 1; p = c ? a : b; p[1] = 4; return a[1] * 2 + b[1]; }

int main(void) { int a = -1; return (1 ? a : 0u) > 0; }

int f(int a, int b) { return a * 10 + b; } int main(void) { int x = 1; return f(x ? 2 : 3, !x ? 4 : x ? 5 : 6); }

int main(void) { int d = 0; return d ? 100 / d : 7; }

signed char c = -3; unsigned char d = 250; int main(void) { int x = 1; return (x ? c : d) + (x ? d : c); }

int m[2][2] = {{1, 2}, {3, 4}}; int main(void) { int k = 1; int *p = k ? m[1] : m[0]; return p[0] * 10 + *(k ? p + 1 : p); }

int n; void f(void) { n += 3; } void g(void) { n += 5; } int main(void) { n > 0 ? f() : g(); n > 0 ? f() : g(); return n; }

int main(void) { int i = 3; i = i < 5 ? i++ , i + 1 : i--; return i; }

int main(void) { int s = 0; for (int i = 0; i < 8; i++) s += i % 3 == 0 ? i % 2 == 0 ? 4 : 3 : i == 1 ? 9 : 1; return s; }
