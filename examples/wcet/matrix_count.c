/* counts and adds up the numbers of a matrix that are negative, and those that are not */
#define ROWS 6
#define COLUMNS 6
int matrix[ROWS][COLUMNS];
int negative, positive, negative_sum, positive_sum;

int main(void)
{
    int i, j;
    for (i = 0; i < ROWS; i++)
        for (j = 0; j < COLUMNS; j++)
            if (matrix[i][j] < 0) {
                negative_sum += matrix[i][j];
                negative++;
            } else {
                positive_sum += matrix[i][j];
                positive++;
            }
    return positive - negative;
}
