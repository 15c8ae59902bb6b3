// constants in base 8, 10 and 16, with their ends, and characters

int main(void) { return 0x1F + 017 + 10u + 5L + 0xAul; }

int main(void) { return (0xffffffff > 0) + (2147483647 > 0) * 2 + (-1 < 0x80000000) * 4 + (037777777777 == -1) * 8; }

int main(void) { return 'a' + '\0' + '\\' - '\'' + ' ' - '"' + '\t'; }

char c = '\xff'; int main(void) { return (c == '\377') + (c == 255) * 2 + ('\x80' < 0) * 4 + ('\7' == 7) * 8; }

int main(void) { int s = 0; for (char c = 'a'; c <= 'e'; c++) s += c - 'a' + '0' - 48; return s + '?' - '\?'; }

unsigned u = 4294967295U; int main(void) { return (u == 0xFFFFFFFFu) + (u + 1 == 0) * 2 + (0x7fffffff + 1u == 2147483648u) * 4 + (0u - 1 == u) * 8; }
