/* the same of odd and even numbers, which stand beside each other */
int x;

int main(void) {
    int s = 0;
    if (x % 2 == 0) s = 1;
    if (x % 2 != 0) s = s + 2;
    return s;
}
