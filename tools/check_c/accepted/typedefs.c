// a name of a type becomes the type, in its scope

typedef unsigned char byte; typedef byte row[3]; row r; int main(void) { r[2] = 300; return r[2] + sizeof(r); }

typedef struct s T; int main(void) { return sizeof(int) + sizeof(short) * 4; }

typedef short t; t x = 70000; int main(void) { typedef unsigned char t; t y = 300; { typedef int t; t z = 300; y += z == 300; } t w = 256; return y + w + (x == 4464); }

typedef int vector[4]; typedef vector matrix[2]; matrix m; int f(vector v) { return v[3]; } int main(void) { m[1][3] = 9; return f(m[1]) + sizeof(matrix); }

typedef int *pointer; void f(pointer p) { *p = 6; } int main(void) { int x; f(&x); return x; }

typedef unsigned long word; typedef const word fixed; static fixed k = 3; int main(void) { word w = 0; return w - k > k; }
