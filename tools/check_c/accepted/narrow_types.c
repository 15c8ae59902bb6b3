// numbers of 8 and 16 bits: they are int in an expression, and cut off where they are put

int main(void) { unsigned char a = 200, b = 100; int s = a + b; unsigned char t = a + b; return s - t == 256; }

signed char c = 200; int main(void) { return c < 0 ? -c : c; }

int main(void) { short s = 0x7fff; s++; return s < 0; }

unsigned char f(unsigned char x) { return x + 1; } int main(void) { return f(255) + f(300) + f(-1); }

short f(int x) { return x; } int main(void) { int y = f(70000) + f(32768); return (y == 4464 - 32768); }

char c = 'z'; int main(void) { char d = c * 2; unsigned char e = c * 2; return (d < 0) + (e > 0) * 2 + (d == e) * 4 + ((char)e == d) * 8; }

unsigned char c = 0x80; int main(void) { int a = c << 1, b = ~c, d = -c, e = (unsigned char)~c; return (a == 256) + (b < 0) * 2 + (d == -128) * 4 + (e == 127) * 8; }

unsigned char a = 10, b = 20; unsigned short s = 3; int main(void) { return (a - b < 0) + (a - b < s) * 2 + ((unsigned short)(a - b) > s) * 4; }

unsigned short u = 65535; int main(void) { unsigned short v = u * 2; u >>= 3; u <<= 15; u += 70000; return (v == 65534) + (u != 0) * 2 + (u & 15) * 4; }

signed char c = -1; unsigned char d; int main(void) { d = c; c >>= 1; int x = d >> 1; d >>= 1; return (c == -1) + (x == 127) * 2 + (d == 127) * 4; }

int f(signed char a, unsigned char b, short c, unsigned short d) { return (a < 0) + (b > 0) * 2 + (c < 0) * 4 + (d > 0) * 8; } int main(void) { return f(128, -1, 32768, -1); }

unsigned char a[3] = {250, 251, 252}; int main(void) { int s = 0; for (int i = 0; i < 3; i++) { a[i] += 5; s = s * 2 + a[i]; } return s & 255; }

char c = 100; int main(void) { c += c; int x = c; c = c - 100; short s = x * 700; return (x == -56) + (c == 100) * 2 + (s == 26336) * 4; }
