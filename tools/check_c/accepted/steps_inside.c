// ++ and -- in an expression are statements of their own, before it or after it

int a[5]; int main(void) { int i = 0; a[i++] = 1; a[i++] = 2; a[++i] = 3; return a[0] + a[1] * 2 + a[3] * 4 + i * 16; }

int a[4] = {1, 2, 3, 4}; int main(void) { int *p = a; int s = *p++; s += *p++ * 2; s += *++p * 3; return s; }

int main(void) { int x = 5; int y = x-- - 2; int z = --x * 3; return x * 20 + y * 4 + z; }

unsigned char c = 255; int main(void) { int x = c++; int y = c--; return x - y + c; }

char s[6] = "hello"; char t[6]; int main(void) { int i = 0, n = 0; while ((t[i] = s[i])) i++; while (t[n]) n++; return n; }

void copy(char *t, char *s) { while (*t++ = *s++) ; } char a[4] = "abc", b[4]; int main(void) { copy(b, a); return b[0] + b[2] - 150; }

int a[3]; int main(void) { int i = 0; int y = ++a[a[0]]; int z = a[i]++ + 10; return y * 16 + z * 4 + a[0]; }

int a[8] = {0, 5, 5, 5}; int main(void) { int y = (a[a[0]]++, a[0]); int z = ++a[a[0]]; return y * 50 + z * 4 + a[1]; }

short s = 32767; signed char c = -128; int main(void) { int x = ++s; int y = --c; return (x == -32768) + (y == 127) * 2; }

int f(int x) { return x; } int main(void) { int i = 1; int s = f(i++); s = s * 10 + f(++i); s = s * 10 + i--; return s + i; }

int a[3] = {7, 8, 9}; int main(void) { int *p = a + 3, s = 0; while (p > a) s = s * 2 + *--p; return s; }

int main(void) { int i = 0; int a[3] = {i++, i++, i++}; return a[0] + a[1] * 3 + a[2] * 9 + i * 27; }
