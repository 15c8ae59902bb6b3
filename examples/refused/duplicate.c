int main(void) {
    int x = 1;
    short x = 2;
    return x;
}
