// tables that do not change

static const unsigned char table[4] = {1, 3, 9, 27}; int main(void) { int s = 0; for (int i = 0; i < 4; i++) s += table[i]; return s; }

static const short steps[2][3] = {{1, -2, 3}, {-4, 5, -6}}; int main(void) { int s = 50; for (int i = 0; i < 6; i++) s += steps[i / 3][i % 3] * i; return s; }

const int squares[] = {0, 1, 4, 9, 16}; enum { COUNT = sizeof squares / sizeof squares[0] }; int main(void) { return squares[COUNT - 1] * 10 + COUNT; }

int f(int i) { const int t[3] = {5, 6, 7}; return t[i]; } int main(void) { return f(0) * f(2) + f(1); }
