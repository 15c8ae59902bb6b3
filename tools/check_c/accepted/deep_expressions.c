// an expression that is nested deeper than the profile allows is made in steps

int f(int x) { return x + 1; } int main(void) { int a = 1; return ((((((((((((a + 1) * 2) + 3) * 2) - 1) ^ 5) + 7) * 3) - 2) & 255) + 1) | 1) + 0 * f(a); }

int main(void) { int a = 1, b = 2; return !(!(!(!(!(!(!(!(!(!(!(!(a && b))))))))))))  + (a - (b - (a - (b - (a - (b - (a - (b - (a - (b - (a - (b - 3)))))))))))) + 20; }

int m[2][2][2]; int main(void) { int i = 1; m[((((((i + 1) - 1) * 1) | 0) ^ 0) + 0) & 1][(((((((i * 2) - 1) + 1) - 1) | 0) ^ 0) & 1)][i] = 9; return m[1][1][1]; }

int main(void) { int a = 3; int s = 0; if (a > 1 && a > 2 && a < 9 && a != 4 && a != 5 && a != 6 && a != 7 && a != 8 && a != 10 && a != 11 && a != 12 && a != 13) s = 1; if (!(a == 1 || a == 2 || a == 4 || a == 5 || a == 6 || a == 7 || a == 8 || a == 9 || a == 10 || a == 11 || a == 12 || a == 13)) s += 2; while (!(a == 21 || a == 22 || a == 24 || a == 25 || a == 26 || a == 27 || a == 28 || a == 29 || a == 30 || a == 31 || a == 32 || a == 33)) a++; return s * 40 + a; }

int f(int x) { if (x == 0) return 9; else if (x == 1) return 8; else if (x == 2) return 7; else if (x == 3) return 6; else if (x == 4) return 5; else if (x == 5) return 4; else if (x == 6) return 3; else if (x == 7) return 2; else if (x == 8) return 1; else if (x == 9) return 11; else if (x == 10) return 12; else if (x == 11) return 13; else if (x == 12) return 14; else if (x == 13) return 15; else if (x == 14) return 16; else if (x == 15) return 17; else if (x == 16) return 18; else return 0; } int main(void) { return f(16) + f(3) * 10 + f(40); }

unsigned char c = 3; int main(void) { return (unsigned char)((unsigned char)((unsigned char)((unsigned char)((unsigned char)((unsigned char)((unsigned char)((unsigned char)((unsigned char)((unsigned char)((unsigned char)(c * 100) + 1) + 1) + 1) + 1) + 1) + 1) + 1) + 1) + 1) + 1); }
