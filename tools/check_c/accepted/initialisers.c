// initialisers of arrays: with places, with strings, with what is no constant

int b[] = {1, 2, 3}; int main(void) { return sizeof b + b[2]; }

int a[5] = {[3] = 4, 5, [0] = 1}; int main(void) { return a[0] + a[3] * 2 + a[4] * 4; }

int main(void) { int x = 4; int a[2] = {x + 1, x * 2}; return a[0] + a[1]; }

char s[] = "hello", t[3] = "abc", u[] = {"xy"}; int main(void) { return sizeof s * 16 + sizeof t * 4 + sizeof u + (t[2] == 'c'); }

int n; int f(void) { return ++n; } int main(void) { int a[4] = {f(), 9, f()}; return a[0] + a[1] * 2 + a[2] * 4 + a[3]; }

int main(void) { int s = 0; for (int i = 0; i < 3; i++) { int a[3] = {i}; a[1] += 2; s += a[0] + a[1] + a[2]; } return s; }

int main(void) { unsigned a[3] = {4294967295u, 2147483648u, -1}; int b[2] = {-2147483647 - 1}; return (a[0] == a[2]) + (a[1] > a[0] / 3) * 2 + (b[0] < 0) * 4; }

unsigned char t[4] = {300, -1, 'a', 0x1ff}; short s[2] = {70000}; int main(void) { return t[0] + t[1] + t[3] - t[2] - (s[0] == 4464); }

int x = {5}; int main(void) { int y = {6}; char c[2][3] = {{'a', 'b'}, "cd"}; return x * y + c[1][1] - c[0][1]; }

int a[3] = {1, 2, 3,}; int e[4] = {}; int main(void) { return a[2] + e[3]; }
