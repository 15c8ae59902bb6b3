/* the same, with a test: an index outside of the array divides by 0, and an alarm tells where */
int a[4];
int i;
int zero;

int main(void) {
    if (i < 0 || i >= 4)
        i = i / zero;
    return a[i];
}
