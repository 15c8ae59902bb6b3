// where C leaves an order open that may matter it is told, each pair of sides at its line

// 4: 'limit[k]' (line 4) and 'pick()' (line 4): k: left
int k; int limit[2] = {2, 0};
int pick(void) { k = 1; return 1000; }
int main(void) { int n = 0;
  limit[k] = pick();
  for (int i = 0; i < limit[0]; i++) n++; return n; }

// 3: 'limit[k]' (line 3) and 'pick() + 1' (line 3): k: right; 4: 'limit[n++]' (line 4) and 'get()' (line 5): n: left
int k, n; int limit[4];
int pick(void) { k = 1; return 1000; } int get(void) { n = n + 1; return 7; }
int main(void) { limit[k] = pick() + 1;
  limit[n++] =
    get(); return limit[0]; }

// 3: 'a[t()]' (line 3) and 't()' (line 3): n: left; 4: 't()' (line 4) and 't()' (line 4): n: left; 5: 'a[i]' (line 5) and 'i++' (line 5): i: right
int n; int a[4]; int t(void) { return n++; } int two(int x, int y) { return x - y; }
int main(void) { int i = 0;
  a[t()] = t();
  n = two(t(), t());
  a[i] = i++; return a[0]; }

// 3: 'a[i]' (line 3) and 'f()' (line 3): i: right; 4: 'x' (line 4) and 'x++' (line 4): x: right; 5: 'x' (line 5) and 'f() + (x++)' (line 5): x: right
int i, x; int a[4]; int f(void) { i = 1; return 5; }
int main(void) {
  a[i] += f();
  x += x++;
  x -= f() + x++; return x; }

// 2: 'x' (line 2) and 'f()' (line 2): x: left; 3: 'f()' (line 3) and 'x' (line 3): x: left; 4: 'f()' (line 4) and 'f()' (line 4): x: left
int x; int f(void) { x++; return 1; } int two(int a, int b) { return a + b; } int g(int a, int b, int c) { return a + b + c; }
int main(void) { int y = x + f();
  y += two(f(), x);
  y += g(f(), 2, f()); return y; }

// 2: 'f()' (line 2) and 'f()' (line 2): x: left; 3: 'a' (line 3) and 'a[0]' (line 3): a: left
int x; int f(void) { return x++; }
int main(void) { int b[2] = {f(), f()};
  int a[2] = {5, a[0]}; return a[1] + b[1]; }

// 2: 'i' (line 2) and 'i++' (line 2): i: right; 3: 'a[a[0]++]' (line 3) and 'a[a[0]++]++' (line 3): a: left; 4: 'i' (line 4) and 'i++' (line 4): i: left
int a[4];
int main(void) { int i = 0; i = i++;
  a[a[0]++]++;
  return i - i++; }

// 5: '*p' (line 5) and 'add(q)' (line 5): x, y: left; 7: 'add(&x) + add(&y)' (line 7) and 'add(&x)' (line 7): x: left; 7: 'add(&x) + add(&y) + add(&x)' (line 7) and '*r' (line 7): x, y: left
int x, y;
int add(int *p) { *p += 1; return *p; }
int look(int *p, int *q) {
  int s = 0;
  s += *p + add(q); return s; }
int main(void) { int *r = &x; look(&x, &y); look(&y, &x); r = &y;
  return add(&x) + add(&y) + add(&x) + *r; }

// 4: 'n' (line 4) and 'f(1)' (line 4): n: left
int n;
int g(int x) { n += x; return n; }
int f(int x) { return g(x) + 1; }
int main(void) { if (n && f(2)) n = 3; else if (n > f(1)) n = 4; return n; }

// 3: 'first()' (line 3) and 'last()' (line 3): the end of the run: left; 4: 'n++' (line 4) and 'last()' (line 4): n: left; 4: 'n' (line 4) and '(n++) * last()' (line 4): n: right
#include <stdlib.h>
int n; int first(void) { if (n) exit(1); return 0; } int last(void) { if (n) exit(2); return 0; }
int main(void) { n = first() + last();
  n = n++ * last(); return n; }

// 2: 'f(_* / int y_ / *? ?/___)' (line 2) and 'n' (line 2): n: left
int n; int f(char *p) { n++; return *p; }
int main(void) { return f("*/ int y; /*??/\"") + n; }
