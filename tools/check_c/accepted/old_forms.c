// parameters in the old form, and functions without a list

int f(a, b) int a; char b; { return a + b; } int main(void) { return f(3, 300); }

int f() { return 5; } int g(x) unsigned char x; { return x; } int main() { return f() + g(260); }

int sum(p, n) int *p; int n; { int s = 0; while (n--) s += *p++; return s; } int a[3] = {4, 5, 6}; int main() { return sum(a, 3); }

f(a, b) int a; { return a + b; } static g(p, n) char *p; unsigned n; { return p[n]; } char t[3] = {1, 2, 3}; main() { return f(1, 2) + g(t, 2); }

int h(a, b, c) short c; int *b; { return a + *b + c; } k() { static n; n += 2; return n; } m(void) { return k() + k(); } main() { int v = 4; int s = h(1, &v, 70000); return s + m(); }

typedef short word; static struct s { int v; } const table; static word (x); static last = 3; const most = 9; word w(a) word a; { register b = a; const c = 3; word *const p = &a; auto d = 1; return b + c + *p + d; } main() { return w(9) + last + x + most; }

int f(a, b) char b; { return a + b; } int main(void) { return f(70000, 300); }

static const x[] = {1, 2}; static int (*const none)(void); static unsigned (u); const struct p { int v; } *far(void); static f(a) register a; { return a; } extern int h(const int); int h(y) const y; { static const z = 2; { register q = y; return q + z; } } struct p static inside; int main(void) { for (;;) { const one = 1; return f(x[1]) + h(3) + one + u; } }
