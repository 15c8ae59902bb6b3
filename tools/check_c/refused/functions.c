// pointers to functions, a variable number of arguments, recursion, and what has no definition are out

// 1: a pointer to a function; 3: a pointer to a function
int (*p)(void); int f(int (*g)(int)) { return g(1); }
int h(int x) { return x; }
int main(void) { return f(h) + f(&h); }

// 1: a variable number of arguments
int f(int n, ...) { return n; }
int main(void) { return f(1, 2); }

// 1: f calls itself; 3: h calls itself; 4: g calls itself
int f(int x) { return x ? f(x - 1) : 0; }
int g(int x);
int h(int x) { return g(x); }
int g(int x) { return h(x); }
int main(void) { return f(3) + h(4); }

// 4: a call of malloc, which has no definition here; 5: a call of memset, which has no definition here; 6: a call of printf, which has no definition here
#include <stdlib.h>
#include <string.h>
int a[3];
int main(void) { int *p = malloc(4);
  memset(a, 0, sizeof a);
  return printf("x"); }

// 2: a call of f with 2 arguments; 3: a call of f with 0 arguments; 4: a call of g, which has no definition here
int f(int a) { return a; }
int main(void) { return f(1, 2)
  + f()
  + g(); }

// 1: elsewhere, which has no definition here
extern int elsewhere; int main(void) { return elsewhere; }

// 1: a value of what gives none; 2: a value of what gives none
void f(void) { } int main(void) { int x = f();
  return f() + 1; }

// 1: there is no function main, which a run would start with (--root names another one)
int f(void) { return 1; }

// 3: there is no function main, which a run would start with (--root names another one)
int x;
extern int y; int y;
static int f(void) { return 1; }
int g(void) { return f(); }

// 2: a value of what gives none; 3: a pointer of another type
char a[4]; unsigned char b[4]; int main(void) {
  char *p = strcpy(a, "x"); int x = 1;
  x += strlen(b); return x + *p; }
