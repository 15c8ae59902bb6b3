// an assignment in an expression has the value that its place then holds

int a, b, c; int main(void) { a = b = c = 7; return a + b + c; }

int main(void) { int x, y; x = (y = 5) + 2; return x * 10 + y; }

short s; int i; int main(void) { i = s = 70000; return i == s; }

int main(void) { int x = 1, y = 2; x += y *= 3; return x * 10 + y; }

unsigned char c; int main(void) { int x = (c = 300) + 1; int y = (c += 250) * 2; return x * 2 + (y & 127); }

int a[10]; int main(void) { int x = (a[a[0]] = 5) + a[5]; return x * 10 + a[0]; }

int a[10] = {1, 2, 3}; int main(void) { int *p = a; int y = (p[*p] = 4) + 1; int z = (p[*p] += 3); return y * 10 + z; }

int f(void) { return 3; } int n; int main(void) { if ((n = f()) == 3 && (n -= 1)) return n * 7; return 0; }

signed char c; unsigned u; int main(void) { u = c = 255; return u == 4294967295u; }

int a[3]; int main(void) { int i = 0; a[i = 2] = 6; a[(i = 1, i)] = 3; return a[1] * 10 + a[2] + i; }
