// the right side of op= is made first, then its place is found and read

int x = 2; int f(void) { x |= 128; return 1; } int main(void) { x |= f(); return x; }

int a[4] = {1, 2, 3, 4}; int f(void) { a[0] += 100; a[1] = 50; return 3; } int main(void) { a[0] += f(); a[1] -= f() + a[3]; return a[0] * 3 + a[1]; }

int i; int a[4] = {1, 2, 3, 4}; int f(void) { i = 2; return 5; } int main(void) { a[i] += f(); return a[0] * 10 + a[2]; }

int i; short a[4] = {1, 2, 3, 4}; int f(void) { i++; a[i] = 7; return 65537; } int main(void) { a[i] *= f() + 1; a[i] |= f(); return a[0] * 100 + a[1] * 10 + a[2]; }

unsigned char c = 250; int f(void) { c += 4; return 3; } int main(void) { c += f(); c <<= f() - 2; return c; }

_Bool b; int f(void) { b = !b; return 2; } int main(void) { b |= f(); int x = b; b ^= f(); b += f(); b -= 1 + f(); return b * 2 + x; }

int x = 5; int f(void) { x += 7; return x; } int main(void) { int y = x += f(); y = y * 10 + (x -= f()); return y - x; }

int x = 1, y = 2; int f(void) { x++; y += x; return y; } int main(void) { x += y *= f(); return x * 100 + y; }

int x = 3; int f(int *p) { *p += 4; return 2; } int main(void) { int *p = &x; *p *= f(&x); *p += f(p); return x; }

int a[6] = {1, 2, 3, 4, 5, 6}; int n; int t(void) { return n++; } int main(void) { int *p = a; *p++ += t(); a[t()] += 10; *++p -= t() + 1; return a[0] + a[1] * 10 + a[2] * 100 + (p - a); }

int a[6] = {1, 2, 3, 4, 5, 6}; int n; int t(void) { return n++; } int main(void) { a[t()] += t(); a[t()] *= t() + 1; return a[0] * 1000 + a[1] * 100 + a[2] * 10 + a[3]; }

int k; int a[2] = {2, 0}; int pick(void) { k = 1; return 10; } int main(void) { a[k] = pick() + 1; k = 0; a[k] = (pick(), 7); k = 0; a[k] = a[1] = pick(); return a[0] * 100 + a[1]; }

int k; char a[2] = {2, 0}; int pick(void) { k = 1; return 10; } int main(void) { a[k] = pick(); return a[0] * 100 + a[1]; }

int k; int a[2] = {2, 0}; int pick(void) { k = 1; return 10; } int main(void) { a[k] = pick(); return a[0] * 100 + a[1]; }

int a[4] = {9, 8, 7, 6}; int main(void) { int i = 0; a[i] = i++; a[i] = i = 2; int *p = a; *p = *p++ + 1; return a[0] * 1000 + a[1] * 100 + a[2] * 10 + i + (p - a); }

int a[2][3] = {{1, 2, 3}, {4, 5, 6}}; int i; int f(void) { i = 1 - i; return 7; } int main(void) { a[i][2] += f(); int (*p)[3] = a; p += i; i = 0; p -= f() - 6; return a[0][2] * 100 + a[1][2] + (p == a); }
