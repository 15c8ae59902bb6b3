/* a filter with finite impulse response over sixteen samples, with eight coefficients */
#define SAMPLES 16
#define TAPS 8
short input[SAMPLES];
short output[SAMPLES];
static const short taps[TAPS] = {-4, 12, 31, 64, 64, 31, 12, -4};

int main(void)
{
    for (int n = 0; n < SAMPLES; n++) {
        long sum = 0;
        for (int k = 0; k < TAPS && k <= n; k++)
            sum += (long)taps[k] * input[n - k];
        sum >>= 8;
        output[n] = sum > 32767 ? 32767 : sum < -32768 ? -32768 : sum;
    }
    return 0;
}
