// && and || and ! as values are 0 or 1, and keep their right side unevaluated

int main(void) { int a = 3, b = 0; int x = a && b; int y = a || b; return x * 2 + y; }

int n; int f(void) { n++; return 1; } int main(void) { int x = 0 && f(); int y = 1 || f(); return x + y * 2 + n * 4; }

int f(int x) { return x > 1 && x < 4; } int main(void) { return f(0) + f(2) * 2 + f(3) * 4 + f(4) * 8; }

int main(void) { int a = 5; int b = !(a && !a) + !a; return b; }

int main(void) { int d = 0; int x = d && 7 / d; int y = !d || 7 / d; return x + y * 2; }

int a[3] = {4, 0, 6}; int main(void) { int s = 0; for (int i = 0; i < 3; i++) s = s * 2 + (a[i] && i); return s + 8 * (a[0] || a[1]) + (a[1] || a[1]); }

int f(int x) { return x; } int main(void) { return f(2 && 3) + f(0 || 0) * 2 + f(!7) * 4 + f(!!7) * 8; }

unsigned char c = 128; int main(void) { int x = (c && 1) << 3 | (c > 127 || 0) << 1; return x; }

int n; int f(int x) { n = n * 3 + x; return x; } int main(void) { int x = f(1) && f(2) && f(0) && f(1); int y = f(0) || f(0) || f(2) || f(1); return (n + x + y * 2) & 255; }
