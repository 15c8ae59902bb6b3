/* sorts eight numbers by insertion, and gives the sum of the least three */
static const short given[8] = {5, 3, 8, 1, -7, 2, 6, 4,};
int a[8];

void take(void) {
    for (int i = 0; i < 8; i++)
        a[i] = given[i];
}

int least(int *from, int n) {
    int sum = 0;
    while (n > 0) {
        sum += *from;
        from++;
        n--;
    }
    return sum;
}

int main(void) {
    take();
    for (int i = 1; i < 8; i++) {
        int x = a[i], j = i;
        while (j > 0 && a[j - 1] > x) {   // make room
            a[j] = a[j - 1];
            j--;
        }
        a[j] = x;
    }
    return least(a, 3);
}
