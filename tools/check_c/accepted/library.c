// small functions of the library: texts put in where they are called

#include <string.h>
char a[8]; int main(void) { strcpy(a, "abc"); return strlen(a) * 10 + strlen("") + strlen(a + 1) + __builtin_strlen("12345"); }

int sign(int x) { return (x > 0) - (x < 0); } int main(void) { return sign(strcmp("ab", "ab")) + 3 * sign(strcmp("ab", "abc")) + 9 * sign(strcmp("b", "abc")) + 27 * sign(strcmp("\x80", "a")); }

int sign(int x) { return (x > 0) - (x < 0); } int main(void) { return sign(strncmp("abx", "aby", 2)) + 3 * sign(strncmp("abx", "aby", 3)) + 9 * sign(strncmp("ab", "abc", 9)) + 27 * sign(strncmp("b", "a", 0)) + 81 * sign(strncmp("\xff", "\x7f", 1)); }

char a[6] = {1, 1, 1, 1, 1, 1}; char b[4] = {1, 1, 1, 1}; int main(void) { strncpy(a, "xy", 4); strncpy(b, "12345", 3); return a[2] + b[3]; }

#include <stdlib.h>
int main(void) { int n = -2147483647 - 1; return abs(-4) + labs(5L) * 2 + abs(0) + (abs(n) == n) * 64; }

int abs(int x) { return x + 1; } int strlen(int x) { return abs(x) * 2; } int main(void) { return strlen(3); }

unsigned int strlen(const char *); int abs(int); char *strcpy(char *, const char *); int sw_strlen = 4; int main(void) { char a[5]; strcpy(a, "four"); return strlen(a) + sw_strlen + abs(-1); }
