// pointers to whole numbers and to rows

void swap(int *a, int *b) { int t = *a; *a = *b; *b = t; } int x = 3, y = 5; int main(void) { swap(&x, &y); return x * 10 + y; }

int a[6] = {5, 4, 3, 2, 1, 0}; int main(void) { int *p = a + 1, *q = &a[4]; return (q - p) * 10 + (p < q) + *(q - 1); }

int sum(const int *p, int n) { int s = 0; while (n--) s += *p++; return s; } int a[3] = {1, 2, 3}; int main(void) { return sum(a, 3) + sum(a + 1, 2); }

void set(char *p, int n, char v) { for (int i = 0; i < n; i++) p[i] = v; } char b[4]; int main(void) { set(b, 3, 7); return b[0] + b[2] + b[3]; }

int a[4] = {1, 2, 3, 4}; int main(void) { int *p = a; *p++ = 9; *p += 10; (*p)++; *++p = 7; p[1]--; return a[0] + a[1] + a[2] + a[3]; }

int find(const short *p, const short *end, int key) { const short *at = p; while (at != end && *at != key) ++at; return at - p; } short t[4] = {5, -6, 7, 8}; int main(void) { return find(t, t + 4, -6) * 10 + find(t, &t[4], 9); }

int f(int *p) { return ++*p; } int main(void) { int x = 4; int y = f(&x) * 10; return y + x + f(&x); }

int a[3] = {1, 2, 3}; int main(void) { int *p = a, *q; q = p + 2; q -= 1; p += *p; return (p == q) + (p >= q) * 2 + (*p == *q) * 4 + (&a[2] - p) * 8; }

unsigned char m[2][3]; void fill(unsigned char *p, int n) { do *p++ = n * 50; while (--n); } int main(void) { fill(&m[0][0], 6); return m[1][2] + m[0][1]; }

int a[4] = {3, 1, 2, 0}; int main(void) { int *p = a; int s = 0; for (int i = 0; i < 4; i++) s = s * 4 + *(p + a[i]); return s & 255; }
