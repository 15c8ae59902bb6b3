/* the greatest common divisor: a second counter, with a limit that holds anyway, bounds the loop */
int a, b;

int main(void) {
    int x = a, y = b;
    for (int turns = 0; y != 0 && turns < 48; turns++) {
        int rest = x % y;
        x = y;
        y = rest;
    }
    return x;
}
