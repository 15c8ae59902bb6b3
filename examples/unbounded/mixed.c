/* an index whose reason lies in bits: below 4 where both parts are, and so the alarm is false */
int table[4];
int a, b;

int main(void) {
    return table[a ^ b];
}
