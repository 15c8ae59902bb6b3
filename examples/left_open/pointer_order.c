/* pointers outside of their array are compared by their offsets, which wrap */
int a[4];
int before;

int main(void) {
    int *first = a;
    int *other = a - 1;
    before = other < first;
    return 0;
}
