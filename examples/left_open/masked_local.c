/* a local without a value is a fault also where a part of it alone is used */
int main(void) {
    unsigned int x;
    x &= 255;
    x = 0;
    return 0;
}
