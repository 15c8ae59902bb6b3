// for: with declarations, without parts, with several steps, and with continue

int main(void) { int s = 0; for (;;) { if (++s > 6) break; } return s; }

int main(void) { int n = 0; for (int i = 0; i < 3; i++) for (int j = i; j < 3; j++) { if (j == 1) continue; n += 10 * i + j; } return n; }

int main(void) { int s = 0; for (int i = 0, j = 8; i < j; i += 2, j -= 1) s += j - i; return s; }

int main(void) { int i, s = 0; for (i = 10; i; ) s += i--; for (; i < 3; i++) ; return s + i; }

int n; int step(int x) { n++; return x + 2; } int main(void) { int s = 0; for (int i = 0; i < 9; i = step(i)) { if (i == 4) continue; s += i; } return s * 10 + n; }

int main(void) { int s = 0; for (int i = 0; i < 4; i++) { int i = 7; s += i; } return s; }

int main(void) { int s = 0; for (unsigned char c = 250; c >= 250; c++) s += c - 249; return s; }

int main(void) { int s = 0; for (int i = 0; s < 20 ? i < 9 : 0; s += i > 3 ? 2 : 1, i++) s += i & 1; return s; }

int main(void) { int s = 0, k = 3; for (int i = k ? 1 : 2; i < 30; i <<= k > 2 && i < 9) { s++; if (s > 6) break; if (i == 2) continue; s += 2; } return s; }
