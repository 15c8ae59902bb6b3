/* a loop up to a rest by a divisor that has a range: no bound is found */
int a, b;

int main(void) {
    int count = 0;
    int most = a % b;
    for (int i = 0; i < most; i++)
        count++;
    return count;
}
