/* sorts eight numbers: neighbours change places until none has to */
int a[8];

int main(void) {
    int end = 8, moved = 1;
    while (moved && end > 1) {
        moved = 0;
        for (int i = 1; i < end; i++) {
            if (a[i - 1] > a[i]) {
                int x = a[i];
                a[i] = a[i - 1];
                a[i - 1] = x;
                moved = 1;
            }
        }
        end--;
    }
    return a[0];
}
