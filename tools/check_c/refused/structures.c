// a program with structures or unions is out: where they are declared and where members are used

// 1: struct or union; 2: a member of a structure
struct s { int a; }; struct s x;
int main(void) { return x.a; }

// 1: struct or union; 2: a member of a structure; 2: struct or union; 3: a member of a structure; 4: a member of a structure
typedef struct { int a; double d; } point; point p; point q[3];
int f(point *x) { return x->a; }
int main(void) { int y = p.a;
  y += q[1].a + f(&p);
  return y; }

// 2: a member of a structure; 2: struct or union; 3: a member of a structure
union u { int a; char b[4]; };
int main(void) { union u x; x.a = 3;
  return x.b[0]; }

// 1: struct or union; 2: a member of a structure
int main(void) { struct { int a; } x;
  x.a = 1; return 0; }
