// casts between whole numbers, and to void

int main(void) { int x = 300; return (unsigned char)x + (signed char)x + (char)(x - 100) + (short)70000 % 100; }

int main(void) { unsigned u = 4000000000u; int x = (int)u; short s = (short)u; return (x < 0) + ((unsigned)x == u) * 2 + (s == 10240) * 4 + ((unsigned short)s == 10240) * 8; }

int n; int f(void) { return ++n; } int main(void) { (void)f(); (void)n; (void)(f(), 3); return n; }

int main(void) { long big = 100000; int x = (int)(short)big + (int)(unsigned char)(signed char)-1; return x == -31072 + 255; }

int a[2] = {5, 6}; int main(void) { const int *p = (const int *)a; int *q = (int *)p + 1; return *q * 10 + *(int *)a; }

int main(void) { unsigned char c = 255; return (int)c + 1 + (signed char)(c + (unsigned char)1) - (int)(unsigned)2; }
