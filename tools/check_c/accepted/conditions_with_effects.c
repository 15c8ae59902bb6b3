// what a condition calls or changes is made where C evaluates it, and only there

int n; int f(int x) { n++; return x; } int main(void) { if (f(0) && f(1)) return 9; return n; }

int n; int f(int x) { n++; return x; } int main(void) { if (f(1) || f(1)) return n; return 9; }

int n; int f(int x) { n++; return x; } int main(void) { int k = 5; while (k-- > 0 && f(k)) ; return n * 10 + k; }

int n; int f(int x) { n++; return x; } int main(void) { int k = 0; do { k++; if (k == 2) continue; } while (k < 4 && f(1)); return n * 10 + k; }

int n; int f(int x) { n++; return x < 5; } int main(void) { int s = 0; for (int i = 0; f(i); i++) { if (i == 1) continue; s += i; } return s * 10 + n; }

int x; int main(void) { int y = 3; if (!(y > 2 && (x = y) == 3)) return 1; return x + 10; }

int main(void) { int i = 0; while ((i += 2) < 9) if (i == 4) continue; return i; }

int n; int f(int x) { n = n * 2 + x; return x; } int main(void) { if ((f(1) && f(0)) || (f(1) && !f(0))) n += 100; return n; }

int n; int f(int x) { n++; return x; } int main(void) { int d = 0; if (d != 0 && 10 / d > f(1)) return 1; if (d == 0 || f(10 / d)) n += 2; return n; }

int n; int f(int x) { n++; return x; } int main(void) { if (f(1) ? f(0) : f(5)) n = 50; else if (f(3) > 2 && f(2)) n += 10; else n = 90; return n; }

int a[4] = {1, 2, 3, 0}; int main(void) { int i = 0, s = 0; while (i < 4 && a[i++] != 3) s += a[i]; return s * 10 + i; }

int n; int f(void) { return ++n; } int main(void) { while (!(f() > 3)) ; while (f() < 6 || f() < 9) ; return n; }

int n; int f(void) { return ++n; } int main(void) { int k = 0; do k += f(); while (!(k > 5 && f() > 4)); return k * 10 + n; }
