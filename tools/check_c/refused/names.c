// names, strings and brackets that are none of C, or more than are read

// 1: a name with a letter that names of C have not; 2: a name with a letter that names of C have not
int a\u0041 = 1;
int b\u00d7 = 2; int main(void) { return 1; }

// 2: an escape at the end of a string that another one follows
char s[] =
  "\x1" "2"; int main(void) { return sizeof s; }

// 1: an escape of this form
char s[] = "\u00e9"; int main(void) { return sizeof s; }
