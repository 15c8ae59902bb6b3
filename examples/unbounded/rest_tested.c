/* the same with a test that says what is known of the rest, and a table that is read at it */
int a, b;
int table[4] = {1, 1, 2, 6};

int main(void) {
    int count = 0;
    int most = a % b;
    if (most < 0 || most > 3)
        return 0;
    for (int i = 0; i < most; i++)
        count++;
    return count + table[most];
}
