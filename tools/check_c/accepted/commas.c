// a comma makes statements one after the other

int main(void) { int i, j; for (i = 0, j = 9; i < j; i++, j--) ; return i * 10 + j; }

int x; int main(void) { int y = (x = 3, x + 1); return y; }

int main(void) { int i, s = 0; for (i = 0; i < 6; s += i, i++) if (i == 3) continue; return s; }

int main(void) { int i, j = 0, s = 0; for (i = 0; i < 3; i++, j += 2) { int j = 5; s += j; } return s + j; }

int n; int f(int x) { n += x; return n; } int main(void) { return f(1), f(2), (f(8), n) * 2 + 1; }

int main(void) { int i = 0, s = 0; while (s += i, i++ < 4) ; return s * 10 + i; }

int f(int a, int b) { return a * 10 + b; } int main(void) { int x = 1; return f((x++, x), (3, 4)); }
