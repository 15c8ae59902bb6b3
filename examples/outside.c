int n;

int main(void) {
    if (n == 0)
        goto done;
    n = 1;
done:
    return n;
}
