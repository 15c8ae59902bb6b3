// programs as people write them: queues, sorting, tables, machines of states, rings, and what mixes the rules

#include <stddef.h>
#include <stdint.h>
#include <stdbool.h>
#define ARRAY_SIZE(a) (sizeof(a) / sizeof((a)[0]))
#define SWAP(a, b) do { int t_ = (a); (a) = (b); (b) = t_; } while (0)
#define MAX(a, b) ((a) > (b) ? (a) : (b))
static int v[] = {5, 3, 9, -1, 7};
static inline bool less(const int *a, const int *b) { return *a < *b; }
int main(void) {
    for (size_t i = 0; i < ARRAY_SIZE(v); ++i)
        for (size_t j = i + 1; j < ARRAY_SIZE(v); ++j)
            if (less(&v[j], &v[i])) SWAP(v[i], v[j]);
    return MAX(v[0], v[4]) * 10 + MAX(v[1]++, v[2]--);
}

unsigned char buf[32]; int head, tail;
int put(unsigned char c) { int next = (head + 1) % (int)sizeof buf; if (next == tail) return -1; buf[head] = c; head = next; return 0; }
int get(unsigned char *c) { if (head == tail) return -1; *c = buf[tail++]; tail %= sizeof buf; return 0; }
int main(void) { unsigned char c; int n = 0, i; for (i = 0; i < 40; i++) { if (put(i * 7) < 0) break; if (i % 3 == 0 && get(&c) == 0) n += c; } while (!get(&c)) n = n * 3 + c; return n; }

static const char text[] = "the quick brown fox  jumps";
int main(void) { const char *s = text; int words = 0, in = 0; char c;
  while ((c = *s++) != '\0') { if (c == ' ' || c == '\t') in = 0; else if (!in) { in = 1; words++; } }
  return words * 100 + (int)(s - text); }

typedef enum { IDLE, RUN, STOP, COUNT } state_t;
static state_t next(state_t s, int e) { switch (s) { case IDLE: return e ? RUN : IDLE; case RUN: if (e == 2) { return STOP; } break; case STOP: default: return IDLE; } return s; }
int events[] = {0, 1, 1, 2, 0, 1, 2, 2};
int seen[COUNT];
int main(void) { state_t s = IDLE; unsigned i; for (i = 0; i < sizeof events / sizeof *events; seen[s]++, i++) s = next(s, events[i]); return seen[IDLE] * 100 + seen[RUN] * 10 + seen[STOP]; }

int days(int y, int m) { static const unsigned char d[12] = {31,28,31,30,31,30,31,31,30,31,30,31}; return m == 2 && (y % 4 == 0 && (y % 100 || y % 400 == 0)) ? 29 : d[m - 1]; }
int main(void) { int n = 0; for (int y = 1899; y <= 2001; y++) for (int m = 1; m <= 12; m++) n += days(y, m) * (m ^ y); return n; }

unsigned isqrt(unsigned x) { unsigned r = 0, b = 1u << 30; while (b > x) b >>= 2; while (b) { if (x >= r + b) { x -= r + b; r = (r >> 1) + b; } else r >>= 1; b >>= 2; } return r; }
unsigned gcd(unsigned a, unsigned b) { while (b) { unsigned t = a % b; a = b; b = t; } return a; }
int main(void) { unsigned s = 0; for (unsigned i = 0; i < 2000; i += 37) s = s * 31 + isqrt(i * i + i) + gcd(i, 360); return s; }

int a[3][4] = {{1,2,3,4},{5,6,7,8},{9,10,11,12}}, t[4][3];
void transpose(int (*from)[4], int to[][3]) { int i, j; for (i = 0; i < 3; i++) for (j = 0; j < 4; j++) to[j][i] = from[i][j]; }
int trace(const int *row, int n) { int s = 0; while (n-- > 0) s = s * 2 + row[n]; return s; }
int main(void) { transpose(a, t); int s = 0; for (int i = 0; i < 4; i++) s ^= trace(t[i], 3); return s + t[3][2] - *(*(t + 1) + 2); }

int depth; int limit(int lo, int x, int hi) { return x < lo ? lo : x > hi ? hi : x; }
short pid(short target, short actual) { static int sum; static short last; int e = target - actual; sum = limit(-1000, sum + e, 1000); int d = e - last; last = (short)e; return (short)limit(-512, (e * 13 + sum * 2 + d * 5) >> 3, 511); }
int main(void) { short x = 0, log = 0; for (int i = 0; i < 60; i++) { x += pid(300, x) / 4; if (i % 5 == 0) log ^= x; } return x * 3 + log; }

unsigned char sbox[16] = {12,5,6,11,9,0,10,13,3,14,15,8,4,7,1,2};
unsigned round_(unsigned x, unsigned k) { unsigned r = 0, i; x ^= k; for (i = 0; i < 8; ++i, x >>= 4) r |= (unsigned)sbox[x & 0xF] << (i << 2); return r << 7 | r >> 25; }
int main(void) { unsigned x = 0xdeadbeef, k = 0x12345678; int n = 12; do x = round_(x, k += 0x9e3779b9); while (--n); return x; }

#include <assert.h>
#include <stdlib.h>
int q[8], n;
static void push(int x) { assert(n < 8); int i = n++; while (i && q[(i - 1) / 2] > x) { q[i] = q[(i - 1) / 2]; i = (i - 1) / 2; } q[i] = x; }
static int pop(void) { if (!n) abort(); int top = q[0], x = q[--n], i = 0, c; while ((c = 2 * i + 1) < n) { if (c + 1 < n && q[c + 1] < q[c]) c++; if (q[c] >= x) break; q[i] = q[c]; i = c; } q[i] = x; return top; }
int main(void) { int s = 0; for (int i = 0; i < 8; i++) push(i * 5 % 8 - 3); while (n) s = s * 7 + pop(); return s; }

#include <stdlib.h>
int x = 3; static void die(int c) { if (c > 2) exit(c); x = c; }
int main(void) { for (int i = 0; ; i++) { die(i); if (x == 100) return 4; } }

int f(int n) { int r = 0; outer: for (int i = 0; i < n; i++) { switch (i & 3) { case 0: continue; case 1: r++; case 2: r += 2; break; default: if (r > 40) break; r <<= 1; continue; } r ^= i; } return r; }
int main(void) { int s = 0, k = 10; while (k --> 0) s += f(k) ? f(k + 1), k & 1 : -1; return s; }

signed char sc = -128; unsigned char uc = 255; short ss = -32768; unsigned short us = 65535; unsigned u = 3; int i = -4;
int main(void) { int r = 0; r += sc-- > 0; r = r * 3 + (uc++ == 255); r = r * 3 + (--ss > 0); r = r * 3 + (us += 2); r = r * 3 + (u > i); r = r * 3 + (i >> 1) + (u >> 1) + (sc >> 1); r = r * 3 + (i / 3) + (i % 3) + (int)(u / i); r ^= -uc; r ^= ~us; r += !uc + !!us; return r + (sc == 127) + (char)200 + (unsigned char)-1; }

int a[5] = {[1] = 4, [4] = 2}; int b[2][2] = {1, [1][0] = 7}; char s[8] = "ab\0c"; unsigned char e[] = {'\xff', '\\', '\101'};
int main(void) { int l[3] = {a[1], a[1]++, a[4]}; int (*p)[2] = b + 1; return l[0] * 100 + l[1] * 10 + l[2] + a[1] + (*p)[0] + p[-1][0] + s[3] + e[0] + e[2] + sizeof e; }

int g; int inc(void) { return ++g; }
int main(void) { int a = inc() && inc() || inc(); int b = g-- ? g : inc(); int c = (inc(), inc()) ? a ? b : inc() : 0; if (!(a && !inc()) || (b = 3, c > 2)) g += a + b * c; for (int i = inc(); i < 9 && inc() < 30; i += inc() & 3) if (i == 5) continue; else c++; return g * 16 + c; }

unsigned char a[3]; int main(void) { unsigned char *p = a; *p++ = 3; *p++ = *a + 4; p[0] = p[-1] * p[-2]; return *p-- * 100 + *p; }

int main(void) { int n = 0; for (int i = 0, j = 10; i < j; i++, j--) { if (i == 2) continue; n += i * j; } return n; }

int main(void) { unsigned long s = 0; for (char c = 'a'; c <= 'z'; c++) s += c, s *= 3; return s; }

int main(void) { int i = 0, s = 0; while (1) { switch (i++) { case 3: continue; case 5: goto_out: ; break; case 7: return s; default: ; } s += i; } }

int t[10]; int main(void) { int i = 0; do { t[i] = i * i; if (i & 1) continue; t[i]++; } while (++i < 10 && t[i - 1] < 50); return i * 100 + t[6]; }

short a[2][2][2]; int main(void) { short (*p)[2][2] = a, *q = &a[1][0][1]; *q = 7; p[0][1][1] = 9; return (*p)[1][1] * 10 + a[1][0][1] + (int)sizeof *p + (int)(q - **a); }

_Bool flag; int main(void) { flag = 256; int r = flag; flag += 1; r = r * 2 + flag; flag--; r = r * 2 + flag; flag = !flag; r = r * 2 + flag; flag ^= 3; flag <<= 4; return r * 2 + flag--; }

unsigned short us = 65535; int main(void) { int a = us * us; unsigned b = us << 16; return (a ^ b) + (us++, us) + (--us == 65535u) + (-1 > 1u) + (short)(us + 1) + ((char)us == -1); }

int main(void) { int v = 7; if (v) if (v > 8) return 1; else return 2; return 3; }
