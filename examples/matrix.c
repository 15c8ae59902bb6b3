/* the square of a matrix of 4 rows and 4 columns, and its fourth power */
int a[16];
int square[16];
int fourth[16];

void multiply(const int *left, const int *right, int *product) {
    for (int i = 0; i < 4; i++) {
        for (int j = 0; j < 4; j++) {
            int sum = 0;
            for (int k = 0; k < 4; k++)
                sum += left[4 * i + k] * right[4 * k + j];
            product[4 * i + j] = sum;
        }
    }
}

int main(void) {
    multiply(a, a, square);
    multiply(square, square, fourth);
    return fourth[0];
}
