/* the product of two matrices of five rows and columns */
#define N 5
typedef int matrix[N][N];
matrix a, b, c;

void multiply(matrix x, matrix y, matrix result)
{
    int i, j, k;
    for (i = 0; i < N; i++)
        for (j = 0; j < N; j++) {
            result[i][j] = 0;
            for (k = 0; k < N; k++)
                result[i][j] += x[i][k] * y[k][j];
        }
}

int main(void)
{
    multiply(a, b, c);
    return c[0][0];
}
