// do: its body comes first, and continue goes to its condition

int main(void) { int x = 1; do x *= 3; while (x < 20); return x; }

int main(void) { int i = 0, s = 0; do { if (i == 2) continue; s += i; } while (++i < 5); return s * 10 + i; }

int main(void) { int i = 0, s = 0; do { if (i == 3) break; s += i; } while (i++ < 9); return s * 10 + i; }

int main(void) { int s = 0; do { s++; do { s += 2; } while (s < 6); } while (s < 20); return s; }

int main(void) { int s = 0, i = 0; do { int i = 4; s += i; if (s > 9) continue; } while (i++ < 3 && s < 100); return s * 4 + i; }

int main(void) { int s = 0; do s++; while (0); do { if (s) break; s = 9; } while (0); do { if (s == 1) continue; s = 8; } while (0); return s; }
