// a string becomes an array of the file

int length(const char *s) { int n = 0; while (s[n]) n++; return n; } int main(void) { return length("hello") * 10 + length(""); }

int main(void) { const char *p = "abc"; return p[1] - 'a' + "xyz"[2] - 'x'; }

int same(const char *a, const char *b) { while (*a && *a == *b) a++, b++; return *a == *b; } int main(void) { return same("ab", "ab") + same("ab", "abc") * 2 + same("\n\x41", "\nA") * 4; }

int sum(const char *p) { int s = 0; for (; *p; p++) s += *p; return s; } int main(void) { return sum("\377\1") + sum("a" "b") - 194; }

char t[] = "one\0two"; int main(void) { const char *p = t[1] == 'n' ? "yes" : "no"; return sizeof t * 10 + (*p == 'y') + sizeof "one\0two"; }
