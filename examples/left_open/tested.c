/* tests before what ISO C leaves open: a run that would come to it divides by 0 first, and an alarm tells where */
int table[4];
int a, b, by, place;
int stop;               // is 0

int main(void) {
    if (b == -1 && a < -2147483647)
        a = a / stop;
    int rest = a % b;
    if (b > 0 && a > 2147483647 - b || b < 0 && a < -2147483647 - 1 - b)
        a = a / stop;
    int sum = a + b;
    if (by < 0 || by >= 32)
        by = by / stop;
    int bits = 1 << by;
    if (place < 0 || place > 4)
        place = place / stop;
    int *here = table + place;
    return rest + sum + bits + (here - table);
}
