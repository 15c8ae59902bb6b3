/* an insertion sort of ten numbers */
#define COUNT 10
int a[COUNT];

int main(void)
{
    int i, j, swapped;
    for (i = 1; i < COUNT; i++) {
        j = i;
        while (j > 0 && a[j] < a[j - 1]) {
            swapped = a[j];
            a[j] = a[j - 1];
            a[--j] = swapped;
        }
    }
    return a[0];
}
