// _Bool holds 0 and 1 alone

_Bool b; int main(void) { b = 4; int x = b; b += 0; b = b + b; return x * 2 + b; }

#include <stdbool.h>
bool is_odd(int x) { return x & 1; } bool is_some(int x) { return x & 6; } int main(void) { return is_odd(3) + is_some(4) * 2 + (is_odd(2) == false) * 4; }

_Bool b; int main(void) { b = 256; int x = b++; int y = b--; int z = --b; return x + y * 2 + z * 4 + b * 8; }

int f(_Bool b) { return b * 3; } int main(void) { return f(2) + f(0) * 10 + f(256) * 4 + (_Bool)0x100 + (int)(_Bool)8; }

_Bool a[3] = {5, 0, -1}; int main(void) { _Bool t[2] = {9}; return a[0] + a[1] * 2 + a[2] * 4 + t[0] * 8 + sizeof a * 16; }

int g(void) { return 8; } int main(void) { _Bool b = g(); b &= 2; _Bool c = g() > 3; c |= 6; c *= 2; return b + c * 2 + ~c; }
