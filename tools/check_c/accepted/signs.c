// numbers with a sign and without in one expression

unsigned r; int main(void) { long l = 100000; unsigned long m = l * 3; r = m / 100000; return r; }

int main(void) { int x = -7; unsigned y = 2; return x / 2 + (x % 3) + (x >> 1) + 20 + (y > x); }

int x = -1; unsigned u = 1; int main(void) { return (x > u) + (x + u == 0) * 2 + (x * u > 5) * 4 + (x / 2 == 0) * 8 + (x / 2u > 9) * 16; }

int main(void) { unsigned u = 3; int x = -5; int y = x + u; unsigned z = u - 5; return (y == -2) + (z > 100) * 2 + ((x % 3u) == 2) * 4; }

unsigned char c = 200; signed char d = -56; int main(void) { return (c == d) + ((unsigned char)d == c) * 2 + (c == (c & 0xff)) * 4 + (d < 0u) * 8; }

int main(void) { int x = -16; unsigned u = x; return (x >> 2 == -4) + (u >> 28 == 15) * 2 + ((x >> 1u) < 0) * 4 + ((u >> 1) > 0) * 8 + (-x >> 1 == 8) * 16; }

int main(void) { int s = 0; for (unsigned i = 3; i < 4; i--) s += i; for (int i = 3; i >= 0; i--) s += i; return s; }

long a = -1; unsigned long b = 0; int main(void) { return (a < b) + (a < (long)b) * 2 + (sizeof a > a) * 4 + (-1 < 0x7fffffff) * 8 + (-1 < 0xffffffff) * 16; }
