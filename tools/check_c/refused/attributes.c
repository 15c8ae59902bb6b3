// attributes and other words of compilers that change what a program means, and those that are not known

// 1: the attribute mode, which changes the size of a type
int x __attribute__((mode(QI))); int main(void) { x = 300; return x; }

// 1: the attribute mode, which changes the size of a type; 2: the attribute packed, which changes the size of a type
typedef int t __attribute__ ((unused, __mode__(__QI__)));
enum __attribute__((packed)) e { A, B };
int main(void) { return sizeof(t) + sizeof(enum e); }

// 1: the attribute vector_size, which changes the size of a type; 2: the attribute section, which changes the first value
int v __attribute__((vector_size(16)));
int w __attribute__((section(".noinit"))) = 4; int main(void) { return w; }

// 2: the attribute cleanup, which changes what runs; 2: the attribute nonesuch, which is in no list
int n; void c(int *p) { n += *p; }
int f(void) { int x __attribute__((cleanup(c), unused, nonesuch(1, (2)))) = 7; return x; } int main(void) { return f() + n; }

// 1: the attribute constructor, which changes what runs; 2: the attribute destructor, which changes what runs
int n; void __attribute__((constructor)) first(void) { n = 4; }
__attribute((destructor)) void last(void) { n = 5; } int main(void) { return n; }

// 1: the attribute weak, which changes which function is called, or which object is meant; 2: the attribute optimize, which changes how operations are made
__attribute__((weak)) int f(void) { return 1; }
__attribute__((optimize("no-wrapv"))) int g(void) { return 2; } int main(void) { return f() + g(); }

// 1: the attribute returns_twice, which changes what runs; 2: an attribute of this form; 3: an attribute in [[ ]]
int f(void) __attribute__((returns_twice)); int f(void) { return 1; }
int g __attribute__((1)) = 4;
[[maybe_unused]] int main(void) { return f() + g; }

// 1: an object of each thread; 2: an object of each thread; 3: an atomic object
__thread int x = 1;
static _Thread_local int y = 2;
_Atomic int z = 3; int main(void) { return x + y + z; }

// 1: a name for the assembler; 2: a name for the assembler; 3: assembly; 5: a name for the assembler; 6: assembly
int x asm("y") = 1;
int f(void) __asm__("g") __attribute__((pure)); int f(void) { return 2; }
asm(".globl h");
int main(void) {
  register int r asm("eax") = 3;
  if (x) asm volatile("nop" : : "r"(r)); return r; }

// 1: assembly
int n; void assembly(void) { n++; } int main(void) { asm("nop"); assembly(); return n; }

// 1: #pragma pack, which changes sizes and places; 3: #pragma omp, which changes what runs at the same time; 5: #pragma nobody knows, which is in no list
#pragma pack(1)
int n; int main(void) {
#pragma omp parallel for
  for (int i = 0; i < 4; i++) n++;
_Pragma("nobody knows this") return n; }

// 1: the attribute aligned, which changes where an object lies
int t[4] __attribute__((aligned(8))) = {1, 2, 3, 4}; int unused(int x __attribute__((unused))) { return 1; } int main(void) { return t[3] + unused(3); }

// 1: the attribute aligned, which changes where an object lies; 2: _Alignas, which changes where an object lies; 3: the attribute aligned, which changes where an object lies
typedef int word __attribute__((aligned(4)));
_Alignas(8) word a[2] = {1, 2};
word b __attribute__ ((__unused__ , __aligned__ (16))) = 3; int main(void) { return a[1] + b + sizeof a; }
