/* a discrete cosine transform of eight samples, by a table of cosines with ten bits behind the point */
#define N 8
short samples[N];
short spectrum[N];
static const short cosines[N][N] = {
    {1024, 1024, 1024, 1024, 1024, 1024, 1024, 1024},       {1004, 851, 569, 200, -200, -569, -851, -1004},
    {946, 392, -392, -946, -946, -392, 392, 946},           {851, -200, -1004, -569, 569, 1004, 200, -851},
    {724, -724, -724, 724, 724, -724, -724, 724},           {569, -1004, 200, 851, -851, -200, 1004, -569},
    {392, -946, 946, -392, -392, 946, -946, 392},           {200, -569, 851, -1004, 1004, -851, 569, -200},
};

int main(void)
{
    for (int k = 0; k < N; k++) {
        int sum = 0;
        for (int n = 0; n < N; n++)
            sum += samples[n] * cosines[k][n];
        spectrum[k] = sum >> 10;
    }
    return spectrum[0];
}
