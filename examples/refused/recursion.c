int factorial(int n) {
    if (n < 2)
        return 1;
    int rest = factorial(n - 1);
    return n * rest;
}

int main(void) {
    return factorial(5);
}
