// names that sweet does not read become others: with $, with letters outside of ASCII, and keywords of C99 that are no words of gcc

int a$b = 4; int a_b = 5; int $ = 6; int f$(int x$y) { static int c$; c$ += x$y; return c$; } int main(void) { int a$b$c = 1; return f$(a$b) + f$(a_b) * 3 + $ + a$b$c; }

int größe = 7; int gr\u00f6\u00DFe2 = 1; int main(void) { return gr\u00f6\u00dfe + größe2 * 10; }

typedef int t$t; enum e$ { A$ = 3, B$ }; int main(void) { t$t x = A$; enum e$ y = B$; return x * 10 + y; }

int $exit(void) { return 3; } int main(void) { int __ = 4; return $exit() + __; }

char s[] = "größe"; char t = 'x'; int main(void) { return sizeof s + s[2] + t; }
