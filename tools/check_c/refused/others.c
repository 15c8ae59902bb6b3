// volatile, assembly, sizes that are no constants, and characters of other kinds are out

// 1: volatile; 2: volatile; 3: volatile
volatile int v;
int main(void) { volatile int *p = &v;
  int x; volatile char c = 1;
  return v; }

// 2: assembly; 3: assembly
int a;
int main(void) { asm volatile("nop" : : "r"(a));
  __asm__("hlt");
  return 0; }

// 2: an expression that is no constant
int main(void) { int n = 3;
  int a[n]; a[0] = 1; return a[0]; }

// 1: a constant of several characters; 2: a wide character
int main(void) { const int x = 'ab';
  return L'a' + x; }

// 1: an expression that is no constant; 2: an expression that is no constant
int y; int x = y;
int main(void) { static int z = y;
  return x + z; }

// 1: an array without elements; 1: more initialisers than members
int a[2] = {1, 2, 3}; int b[0];
int main(void) { return a[0] + b[0]; }

// 1: an array without a length; 2: an array without a length
int a[4][]; int main(void) {
  int b[2][]; return a[0][0]; }

// 1: an array without a length; 3: an array without a length
int f(int (*p)[]) { return p[1][0]; } int a[2][2]; int main(void) {
  int x = f(0) + a[0][0];
  int (*q)[] = &a[0]; return x + (*q)[1]; }

// 2: a compound literal
int f(int *p) { return p[1]; } int main(void) {
  return f((int[]){1, 2}); }

// 1: a static assertion that does not hold where int, long and pointers have 32 bits; 2: a static assertion that does not hold where int, long and pointers have 32 bits
_Static_assert(sizeof(long) == 8, "a long of 64 bits");
int main(void) { int *p; _Static_assert(sizeof p == 8, "a pointer of 64 bits"); return 1; }

// 1: assembly
int f(a) int a; { asm("nop"); return a; } int g(void) { return 1; } int main(void) { return f(1); }

// 1: assembly; 2: assembly; 3: the attribute constructor, which changes what runs; 5: #pragma GCC optimize, which changes how operations are made
asm("nop"); int f(void) { asm("nop"); return 1; } int g(void) { asm("hlt"); return 1; }
int h(void) { asm("nop"); return f(); } int main(void) { return h(); }
__attribute__((constructor)) void begin(void) { }
void none(void) {
#pragma GCC optimize ("O3")
}
