/* a sum of int that does not fit wraps */
int a = 2147483647;
int less;

int main(void) {
    if (a + 1 < a)
        less = 1;
    return a + 1;
}
