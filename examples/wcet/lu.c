/* a system of four linear equations in whole numbers with eight bits behind the point, by elimination */
#define N 4
#define ONE 256
int a[N][N];
int b[N];
int x[N];
int singular;

int divided(int n, int d)
{
    if (d == 0) {
        singular = 1;
        return 0;
    }
    return n * ONE / d;
}

int main(void)
{
    int i, j, k;
    for (k = 0; k < N - 1; k++)
        for (i = k + 1; i < N; i++) {
            int factor = divided(a[i][k], a[k][k]);
            for (j = k; j < N; j++)
                a[i][j] -= factor * a[k][j] / ONE;
            b[i] -= factor * b[k] / ONE;
        }
    for (i = N - 1; i >= 0; i--) {
        int sum = b[i];
        for (j = i + 1; j < N; j++)
            sum -= a[i][j] * x[j] / ONE;
        x[i] = divided(sum, a[i][i]);
    }
    return singular;
}
