int table[4];

int main(void) {
    int *p = table;
    return p * 2;
}
