// every reason is told, and not the first alone

// 1: floating point; 2: goto; 3: 64 bits; 5: a variable number of arguments; 5: struct or union; 6: a member of a structure; 6: floating point; 7: 64 bits
int main(void) { double x = 1.0;
  goto out;
  long long y;
  out: return x + f(0); }
int f(struct s *p, ...) {
  return p->x + 2.5
    * (long long)3; }

// 1: struct or union; 2: f calls itself; 2: floating point; 3: a member of a structure; 3: a null pointer; 3: floating point; 4: floating point; 4: goto; 5: a call of puts, which has no definition here; 5: a case inside another statement; 5: a member of a structure; 5: volatile; 8: floating point
struct s { int a; } t;
int f(int *p, double d) {
  if (p == 0 && d > 1.0) return t.a;
  for (double i = 0; i < 3; i++) { goto out; }
  while (t.a) { volatile int v; switch (t.a) { case 1: puts("x"); } }
  out: return f(p, d); }
int main(void) { return f(0,
  1.5); }
