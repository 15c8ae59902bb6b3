/* two nested loops, of which the inner one begins where the outer one stands */
#define N 12
int n;
int visits;

int main(void)
{
    int i = 0, j;
    while (i < n) {
        for (j = i; j < N; j++)
            visits++;
        i++;
    }
    return visits;
}
