// pointers to pointers, of the file, to void, as results, as numbers, and without a target are out

// 1: a pointer of the file; 1: a pointer to a pointer; 3: a pointer to a pointer
int x; int *p = &x; int **q;
int main(void) { int *p = &x;
  int **q = &p;
  return **q; }

// 1: a function that gives a pointer; 1: a pointer to void
void *p; int *f(void) { return 0; }
int main(void) { return *f() + (p == 0); }

// 1: an array of pointers
int main(void) { int *a[3]; int x;
  a[0] = &x; return 0; }

// 1: a cast of a pointer; 2: a cast of a pointer
int g; int main(void) { char *c = (char *)&g;
  int x = (int)c;
  return *c; }

// 1: a null pointer; 2: a null pointer; 3: a null pointer; 4: a null pointer
int main(void) { int *p = 0;
  int *q = (int *)0;
  if (p == 0) return 1;
  if (!p) return 2; if (p) return 3;
  return p != q; }

// 2: a null pointer; 3: a null pointer
#include <stddef.h>
int main(void) { int x; int *p = &x; while (p)
  p = NULL;
  return 0; }

// 1: a pointer to a pointer
int main(int argc, char **argv) { return argc; }

// 1: a pointer of another type; 2: a pointer of another type
short s; int main(void) { int *p = &s;
  unsigned u; p = &u; return 0; }
