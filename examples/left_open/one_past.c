/* a pointer one past an array is equal to no other object here */
int a[2];
int b[2];
int same;

int main(void) {
    int *end = a + 2;
    int *start = b;
    same = end == start;
    return same;
}
