// rows of an array stand one after the other

int m[3][4]; int main(void) { for (int i = 0; i < 3; i++) for (int j = 0; j < 4; j++) m[i][j] = i * j; return m[2][3] + m[1][2]; }

int m[2][3] = {{1, 2}, {4, 5, 6}}; int sum(int a[][3], int n) { int s = 0; for (int i = 0; i < n; i++) for (int j = 0; j < 3; j++) s += a[i][j]; return s; } int main(void) { return sum(m, 2); }

int m[2][3] = {1, 2, 3, 4, 5, 6}; int last(int *r) { return r[2]; } int main(void) { return last(m[0]) * 10 + last(m[1]); }

char c[2][2][2]; int main(void) { c[1][0][1] = 5; c[0][1][1] = 3; int k = c[1][0][1] - c[0][1][1]; return k; }

short m[][2] = {{1, 2}, {3, 4}, {5, 6}}; int main(void) { return sizeof m / sizeof m[0] * 10 + m[2][1]; }

int m[2][2] = {{1, 2}, {3, 4}}; int main(void) { int *p = &m[1][0]; return *p * 10 + *(*(m + 1) + 1); }

int m[3][2] = {[1] = {7}, [2][1] = 8, [0][0] = 3, 4}; int main(void) { return m[0][0] + m[0][1] * 3 + m[1][0] * 5 + m[2][1]; }

int m[2][2][3]; int f(int (*p)[3]) { return p[1][2]; } int main(void) { m[1][1][2] = 40; return f(m[1]) + sizeof m[1] + sizeof m[1][1]; }

int n; int f(int x) { n = n * 3 + x; return x; } int m[3][3]; int main(void) { m[f(1)][2] = 5; m[2][f(0)] += 4; return m[1][2] * 10 + m[2][0] + n; }

char days[3][4] = {"mon", "tue", "wed"}; int main(void) { int s = 0; for (int i = 0; i < 3; i++) for (char *p = days[i]; *p; p++) s += *p; return s & 255; }

int m[3][4]; int main(void) { int (*p)[4] = m; p++; (*p)[1] = 6; p[1][2] = 7; return m[1][1] * 10 + m[2][2] + (p - m); }

int main(void) { int x = 2; int m[2][2] = {{x, x + 1}, {x * 2}}; m[1][1] -= x--; return m[0][0] + m[0][1] * 3 + m[1][0] * 9 - m[1][1]; }
