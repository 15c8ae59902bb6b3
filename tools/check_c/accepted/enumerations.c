// constants of an enumeration become their numbers; a local of the same name hides them

enum { A, B = 5, C }; int main(void) { return A + B + C; }

enum e { X = 1 << 3, Y = X | 1 }; int a[Y]; int main(void) { enum e v = Y; return sizeof a / sizeof a[0] + v; }

enum { A = 1 }; int main(void) { int A = 5; { enum { A = 9 }; if (A != 9) return 1; } return A; }

enum { K = 3 }; int f(int K) { return K; } int main(void) { int s = f(8) + K; for (int K = 0; K < 2; K++) s += K; return s; }

enum light { RED, YELLOW, GREEN } now = YELLOW; enum light next(enum light it) { return it == GREEN ? RED : it + 1; } int main(void) { now = next(now); return now * 10 + next(now); }

enum up { U } u; enum down { D = -1 } d; int main(void) { u = U - 1; d = D; return (u < 0) + (d < 0) * 2; }

int f(void) { enum { K = 7 }; return K; } int main(void) { enum { K = 2, L = K * 3, M }; return f() * 10 + L + M; }
