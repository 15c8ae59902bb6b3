/* the least int divided by -1 is itself, and leaves 0 */
int a;
int b;
int rest;

int main(void) {
    rest = a % b;
    return a / b;
}
