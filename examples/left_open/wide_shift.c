/* a shift by 32 or more leaves no bit, or the sign */
int by = 32;
int up;
int down;

int main(void) {
    int least = -5;
    up = 1 << by;
    down = least >> by;
    return 0;
}
