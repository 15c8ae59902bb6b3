// a static local becomes an object of the file, with a name of its own

int next(void) { static int n = 4; n += 2; return n; } int main(void) { next(); return next(); }

int f(void) { static char t[3] = {1, 2, 3}; t[0]++; return t[0]; } int main(void) { f(); int x = f(); return x + f(); }

int f(void) { static int n; return ++n; } int g(void) { static int n = 10; return ++n; } int main(void) { f(); g(); int x = f(); return x + g(); }

int f(int k) { if (k) { static int n = 5; n++; return n; } else { static int n = 50; n--; return n; } } int main(void) { f(1); f(0); int x = f(1); return x * 10 + f(0); }

int f_n = 100; int f(void) { static int n = 1; n++; return n; } int main(void) { int f_n = 7; f(); return f() + f_n; }

int n = 3; int f(void) { int s = n; static unsigned char n = 250; n += 3; return s + n; } int main(void) { f(); int x = f(); return x - f() + n; }
