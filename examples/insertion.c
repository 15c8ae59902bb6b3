/* an insertion sort of ten numbers */
int a[10];
int main(void) { int i; int j; int key;
  for (i = 1; i < 10; i = i + 1) {
    key = a[i]; j = i - 1;
    while (j >= 0 && a[j] > key) { a[j + 1] = a[j]; j = j - 1; }
    a[j + 1] = key;
  }
  return a[0]; }
