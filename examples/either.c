/* two tests of one input, of which each run meets just one */
int x;

int main(void) {
    int s = 0;
    if (x < 5) s = 1;
    if (x >= 5) s = s + 2;
    return s;
}
