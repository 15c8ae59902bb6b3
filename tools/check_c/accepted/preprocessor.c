// lines of the preprocessor: what it gives is read, with the headers of C

#include <limits.h>
#include <stdint.h>
uint8_t x = UCHAR_MAX; int main(void) { x++; return x + (INT_MAX > 0); }

#define SQ(x) ((x) * (x))
static inline int f(int x) { return SQ(x + 1); } int main(void) { return f(3); }

#define N 3
int a[N * 2 + 1]; int b[] = {1, 2, 3}; int main(void) { return sizeof a + sizeof b; }

#define MAX(a, b) ((a) > (b) ? (a) : (b))
#define CLAMP(x, low, high) MAX(low, (x) < (high) ? (x) : (high))
int main(void) { int x = 7; return MAX(x, 3) * 10 + CLAMP(x * 2, 1, 9); }

#ifdef NOWHERE
struct s { double d; };
#elif 2 > 1
#define STEP(n) do { if (n) s += (n); else s--; } while (0)
#endif
int main(void) { int s = 0; if (s == 0) STEP(4); else STEP(7); STEP(0); return s; }

#define JOIN(a, b) a ## b
#define TEXT(x) #x
int JOIN(g, 1) = sizeof TEXT(abc); int main(void) { return g1; }

#include <stddef.h>
#include <stdint.h>
int16_t s = INT16_MIN; uint32_t u = UINT32_MAX; int main(void) { size_t n = sizeof s; ptrdiff_t d = -1; return n + (d < 0) * 8 + (u + 1 == 0) * 16 + (s < 0) * 32; }

/* a comment
   over lines */
int main(void) { // another
  int x = 1 \
    + 2;
  return x /* and one */ + 3; }

#include <limits.h>
int main(void) { long a = LONG_MAX; unsigned long b = ULONG_MAX; return (a == INT_MAX) + (b == UINT_MAX) * 2 + (CHAR_MIN < 0) * 4 + (SHRT_MAX == 0x7fff) * 8; }
