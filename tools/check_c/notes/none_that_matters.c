// what C orders, and sides that touch nothing in common, are told nothing of

// none
int x = 2; int f(void) { x |= 128; return 1; } int main(void) { x |= f(); return x; }

// none
int n; int f(void) { n++; return n; } int main(void) { int y = f(); y += f(); y = (f(), f()); y = y && f() || f(); return f() ? y : f(); }

// none
int a, b; int f(void) { return ++a; } int g(void) { return ++b; } int two(int x, int y) { return x - y; } int main(void) { int s = f() * 10 + g(); return s + two(f(), g()); }

// none
int t[4] = {1, 2, 3, 4}; int f(int i) { return t[i & 3]; } int main(void) { int s = f(0) + f(1) * f(2); s = s + f(s) + s; return s; }

// none
int a[4]; int main(void) { int i = 1; a[0] = a[1]++ + a[2]--; i = a[i] = 3; a[i] = a[i] + 1; i = i + 1; return a[0] + a[1] + i; }

// none
int b[4], a[4]; void set(int *p, int x) { *p = x; } int get(int *p) { return *p; } int main(void) { set(a, 2); set(b, 3); int c = get(a) - get(b); return c + get(a) * (set(b, 1), 4); }

// none
int x; int f(int x) { x += 2; return x; } int main(void) { int y = 3; return f(y) + f(y) * y + x; }

// none
int f(int n) { int s = 0, a[3] = {n, n + 1}; for (int i = 0; i < 3; i++) s += a[i]++; return s; } int main(void) { int k = 2; return f(k) - f(k + 1) * f(f(k)); }

// none
#include <assert.h>
int f(int x) { assert(x > 0); return x; } int main(void) { return f(1) + f(2); }

// none
int add(int *p) { return ++*p; } int main(void) { int x = 1, y = 2; return add(&x) + add(&y) * sizeof(x++); }

// none
enum { x = 3 }; int f(void) { static int x; return ++x; } int main(void) { struct s { int x; }; { int y = f() + x; return y; } }

// none
int x; int f(void) { x = 4; return 1; } int main(void) { int x = 2; x += f() + x; return x; }
