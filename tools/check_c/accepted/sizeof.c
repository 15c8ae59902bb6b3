// sizeof is a number: pointers and long have four bytes, and what stands under it is not made

int main(void) { return sizeof(char) + sizeof(short) * 10 + sizeof(int); }

int a[7]; short m[3][4]; int main(void) { return sizeof a + sizeof m + sizeof m[0] + sizeof m[0][0]; }

int n; int f(void) { n++; return 1; } int main(void) { int s = sizeof(f()) + sizeof(n++) + sizeof(n = 5); return s * 10 + n; }

int a[10]; int main(void) { char a[3]; int b[sizeof a]; return sizeof b / sizeof b[0] + sizeof a; }

int main(void) { char c = 1; short s = 2; return sizeof c + sizeof(c + s) * 4 + sizeof(-c) * 16 + sizeof 'a' + sizeof "abc" * 2; }

int main(void) { int x = -1; return (x < (int)sizeof(int)) * 2 + (x < sizeof(int)); }

int f(int *p, int a[9]) { return sizeof p + sizeof a + sizeof *p; } int main(void) { int x[2] = {0}; return f(x, x) + sizeof(long) + sizeof &x[1]; }

int m[2][5]; int main(void) { return sizeof *m + sizeof **m + sizeof m / sizeof *m + sizeof(int[3][2]); }

_Static_assert(sizeof(int) == 4 && sizeof(short[3]) == 6, "sizes"); int main(void) { _Static_assert(1, "one"); return sizeof(int); }
