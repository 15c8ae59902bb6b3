// sizes and initialisers that are expressions of constants are their numbers

int x = 3 * 4 - (1 << 2), y = ~0 & 7; int main(void) { return x * 10 + y; }

int a[(3 > 2) + 2], b[5 % 3 + 6 / 4]; int main(void) { return sizeof a + sizeof b * 4; }

unsigned u = 0xffffffff; int main(void) { int a[3] = {u > 5, 2}; return a[0] + a[1] + a[2]; }

int x = -7 / 2, y = -7 % 3, z = -8 >> 1; unsigned w = -1u / 2; int main(void) { return (x == -3) + (y == -1) * 2 + (z == -4) * 4 + (w == 0x7fffffff) * 8; }

int a = 1 ? -1 : 0u; int b = (1 ? -1 : 0u) > 0; int c = (unsigned char)300 + (signed char)200; int main(void) { return (a < 0) + b * 2 + (c == -12) * 4; }

int x = -2147483647 - 1; int y = 0x80000000; char c = 300; unsigned short s = -1; int main(void) { return (x == y) + (x < 0) * 2 + (c == 44) * 4 + (s == 65535) * 8; }

int x = 'a' + '\n' + '\x7f' + '\101' + '\377'; int main(void) { return x; }

int x = !0 + !5 * 2 + (3 && 0) + (0 || 9) + (7 == 7) + (1 != 1) + sizeof(int[3]); int main(void) { return x; }
