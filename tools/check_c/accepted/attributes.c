// attributes, extern, inline, register, restrict, const and static at their places, and prototypes

__attribute__((noinline)) int f(int x) { return x; } extern int f(int); int main(void) { return f(8); }

extern int g; int g = 4; extern void abort(void); int main(void) { if (g != 4) abort(); return g; }

static int helper(int); int main(void) { return helper(5); } static int helper(int x) { return x + 1; }

static inline __attribute__((always_inline)) int twice(register int x) { return x * 2; } int main(void) { register int i = 4; return twice(i); }

void add(int *restrict a, const int *restrict b, const int n) { for (int i = 0; i < n; i++) a[i] += b[i]; } int a[2] = {1, 2}, b[2] = {3, 4}; int main(void) { add(a, b, 2); return a[0] * 10 + a[1]; }

int f(void); int main(void) { int f(void); extern int g; return f() + g; } int g = 7; int f(void) { return 30; }

int t[4] __attribute__((nocommon)) = {1, 2, 3, 4}; int unused(int x __attribute__((unused))) { return 1; } int main(void) { return t[3] + unused(3); }

int x; int x; extern int x; int x = 6; int a[]; int a[3]; int main(void) { a[2] = x; return a[2] + sizeof a; }

typedef int word __attribute__((unused)); word a[2] = {1, 2}; word b __attribute__ ((__unused__ , deprecated ("x"))) = 3; int main(void) { return a[1] + b + sizeof a; }

#pragma once
#pragma GCC diagnostic push
#pragma GCC diagnostic ignored "-Wunused"
int f(int x) __attribute__((
  pure)); int f(int x) { return x + 1; }
_Pragma("GCC diagnostic pop") int main(void) {
#pragma GCC unroll 4
  for (int i = 0; i < 3; i++) ; return f(__LINE__); }

#define FALL __attribute__((fallthrough))
__extension__ __attribute__((__noreturn__)) void die(void) { for (;;) ; } int main(void) { int s = 0; switch (s) { case 0: s = 4; FALL; case 1: s++; break; default: die(); } return s; }
