// a program with floating point is out: its types and its constants

// 1: floating point; 3: floating point
double d; float f(float x) { return x * 2.5f; }
int main(void) { int i = 3;
  i = i * 1.5;
  return (int)d + f(i); }

// 1: floating point; 2: floating point
int main(void) { int x = 1e3;
  return x + (int)0.5; }

// 2: floating point; 3: floating point
typedef double real;
int main(void) { real x = 2;
  return (real)3 > 2; }
