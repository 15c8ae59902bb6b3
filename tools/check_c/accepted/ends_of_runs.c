// abort, exit and assert are faults at their lines; exit of the root is a return

#include <stdlib.h>
int main(void) { int x = 2; if (x == 3) abort(); exit(x); }

#include <assert.h>
#include <stdlib.h>
int main(void) { int x = 2; assert(x == 2); return x; }

void abort(void); int r; int main(void) { r = 1; if (r) abort(); return 3; }

#include <assert.h>
int n; int main(void) { assert(n++ == 0); if (n) assert(n == 1); else assert(n == 2); return n; }

#include <assert.h>
int n; int f(int x) { assert(x < 3 && "too large"); n += x; return n; } int main(void) { f(1); f(2); f(3); return 9; }

#define NDEBUG
#include <assert.h>
int n = 5; int main(void) { assert(n++ == 0); return n; }

#include <stdlib.h>
int n; int g(void) { return n + 3; } int main(void) { n = 4; if (n > 3) exit(g() * 2); return 1; }

#include <stdlib.h>
int n; void f(int x) { n++; if (x > 2) exit(x); } int main(void) { f(1); f(3); return n; }

void abort(void); int f(int x) { if (x) return 4; abort(); } int main(void) { return f(1) + (0 ? (abort(), 1) : 2); }

#include <stdlib.h>
int main(void) { int x = 6; x > 5 ? exit(x + 1) : abort(); return 0; }

int f(int x) { switch (x) { case 1: return 6; default: __builtin_abort(); } } int main(void) { return f(1) + f(1); }

#include <stdlib.h>
int n; void f(int x) { if (x > 5) exit(n++); if (x > 2) { _exit(x); } } int main(void) { f(1); n = 4; f(2); int sw_exit_2 = 3; return n + sw_exit_2; }

#include <stdlib.h>
int n; int f(int x) { return x ? n++ : (exit(n), 1); } int main(void) { f(1); f(2); f(0); return n; }
