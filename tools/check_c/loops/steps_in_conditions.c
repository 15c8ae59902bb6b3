// how often the head of the loop is visited at least and at most, where the input k is 0 to 50

// 1 51
unsigned k; int main(void) { int s = 0; while (k--) s++; return s; }

// 1 51
int k; int main(void) { int s = 0; for (; k--;) s++; return s; }

// 1 51
unsigned k; int main(void) { int s = 0; while (k-- != 0) s++; return s; }

// 1 51
unsigned k; int main(void) { int s = 0; while (k-- > 0) s++; return s; }

// 1 51
unsigned k; int main(void) { int s = 0; while (!(k-- == 0)) { if (s == 60) continue; s++; } return s; }

// 1 51
unsigned char k; int main(void) { int s = 0; while (k--) s++; return s; }

// 1 51
unsigned short k; int main(void) { int s = 0; while (0 < k--) s++; return s; }

// 1 51
unsigned k; int main(void) { int s = 0; unsigned a[2] = {3, 0}; a[1] = k; while (a[1]--) s++; return s; }

// 1 51
unsigned k; int main(void) { int s = 0; unsigned *p = &k; while ((*p)--) s++; return s; }

// 1 50
unsigned k; int main(void) { int s = 0; k++; if (k > 50) k = 50; do s++; while (--k); return s; }

// 1 51
unsigned k; int main(void) { int s = 0; do s++; while (k--); return s; }

// 1 51
unsigned k; int main(void) { int s = 0; unsigned i = 0; while (i++ < k) s++; return s; }

// 2 52
unsigned k; int main(void) { int s = 0; unsigned i = 0; do { if (s == 60) continue; s++; } while (i++ < k); return s; }

// 1 51
unsigned k; int main(void) { int s = 0; unsigned n = k; while (k < 99 && n--) s++; return s; }
