// goto, and cases inside of other statements, are out

// 2: goto; 3: goto
int main(void) { int i = 0;
  again: i++; if (i < 3) goto again;
  goto end;
  end: return i; }

// 2: a case inside another statement
int main(void) { int x = 3; switch (x) { case 1: if (x) {
  case 2: x++; } }
  return x; }

// 2: a case inside another statement
int main(void) { int n = 5; switch (n & 1) { case 0: do { n--;
  case 1: n--; } while (n > 0); }
  return n; }
