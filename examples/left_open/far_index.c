/* an index is multiplied by the size of an element modulo 2 to 32 */
int a[4];
int i;

int main(void) {
    a[1] = 7;
    return a[i];
}
