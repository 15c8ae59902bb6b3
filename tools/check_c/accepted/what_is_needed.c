// what the root does not come to is left out, whatever it is

struct s { double d; }; struct s unused; double f(struct s *p, ...) { return p->d; } int main(void) { return 3; }

int f(int x) { return x ? f(x - 1) : 0; } int g(int x) { goto out; out: return f(x); } int h(void); int main(void) { return 4; }

extern int elsewhere; int nowhere(void); int *p = &elsewhere; long long f(void) { return nowhere() * 4ll / 3; } int g = 4; int main(void) { return g; }

enum e { A, B = 5 }; typedef enum { C = 7 } t; struct s { int x; }; t one(t y) { return y; } int main(void) { enum e z = B; return one(C) + z; }

typedef double number; typedef int whole; number unused = 1.0; whole twice(whole x) { return 2 * x; } whole (*q)(whole) = twice; whole a[sizeof(whole)]; int main(void) { a[3] = twice(4); return a[3]; }

int helper(int); int main(void) { return helper(2); } int helper(int x) { static int n = 3; return x + n; } int g; int other(void) { return g; } int g = 2;

static inline void wait(void) { asm volatile("wfi"); } __attribute__((weak)) int f(void) { asm("nop"); return 1; } int main(void) { return 2; }

int tag; struct tag { int x; } other; float f(struct tag *p) { return p->x; } int main(void) { return ++tag; }

int big[5000]; int large[5000]; void f(void) { large[1]++; } int main(void) { return big[1]; }

int fill(int *p, int n) { for (int i = 0; i < n; i++) p[i] = i; return n; } int a[3]; int b[4]; int last(void) { return fill(b, 4); } int main(void) { return fill(a, 3) + a[2]; }
