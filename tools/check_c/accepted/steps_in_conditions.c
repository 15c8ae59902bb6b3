// a step that is a condition, or is compared there, is made after the test, on both ways

unsigned k = 5; int main(void) { int s = 0; while (k--) s = s * 2 + k; return s + (k == 0xffffffff); }

int main(void) { int k = 5, s = 0; for (; k--; s += 100) { if (k == 3) continue; if (k == 1) break; s += k; } return s * 10 + k; }

int main(void) { int k = 5, s = 0; do { if (k == 3) continue; s += k; } while (--k); do s++; while (k++ < 3); do { int k = 2; s += k; } while (k-- != 0); return s * 10 + k; }

unsigned char c = 3; signed char d = -2; _Bool b = 1; int main(void) { int s = 0; while (c--) s++; while (d++) s += 10; while (b--) { s += 100; if (s > 500) break; } while (b++ == 0) s += 1000; return s + c + d + b; }

int a[3] = {2, 3, 4}; int main(void) { int i = 1, s = 0, *p = a; while (a[i]--) { s++; if (s == 2) i = 2; if (s > 9) break; } while ((*p)-- > 0) s += 10; while (a[0]++ < 1 && s < 99) s += 7; return s * 10 + a[0] + a[1] + a[2]; }

int n; int f(int x) { n++; return x; } int main(void) { int k = 4; while (k-- && f(k != 2)) ; while (f(1) && k++ < 6) ; while (!(k-- < 4) || f(n < 9)) if (n > 8) break; return n * 10 + k; }

int main(void) { int k = 3, s = 0; if (k--) s = 1; if (k-- > 5) s += 10; else s += 20; if (s == 7) s = 8; else if (k++ == 1) s += 100; else if (!k--) s += 200; return s * 10 + k; }

int main(void) { int k = 2; int x = k-- ? k + 10 : k + 20; int y = !k-- ? k : k + 5; int z = (k-- && k++ || k--) ? 1 : 2; return x * 1000 + y * 100 + z * 10 + k; }

int a[4] = {3, 2, 1, 0}, n; int t(void) { return n++ & 1; } int main(void) { int s = 0; while (a[t()]--) { s++; if (s > 5) break; } int i = 0; while (a[a[i] & 3]-- > -3) { s += 10; if (s > 60) break; } return s + a[0] + a[1] * 3 + a[2] * 5 + n; }

int a[4] = {3, 2, 1, 0}; int main(void) { int *p = a, s = 0; while (p++ != a + 3) { int p = 2; s += p; } while (--p != a) s += *p; if (p++ == a) { int p = 7; s += p; } return s * 10 + (p - a); }

int main(void) { int n = 5, s = 0; while (n-- > s) s++; while (n-- > n) { s += 10; if (s > 50) break; } return s * 10 + n; }

int main(void) { int k = 9, i = 0; while (i++ < k--) ; switch (k--) { case 4: while (k--) { if (k == 1) break; } break; default: k = 70; } return k * 10 + i; }
