int main(void) {
    int x = 3;
    return x > 2 ? 1 : 0;
}
