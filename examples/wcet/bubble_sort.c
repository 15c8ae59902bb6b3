/* a bubble sort of eight numbers, which ends after a pass without a swap */
#define COUNT 8
typedef unsigned char bool_t;
short data[COUNT];

static bool_t pass(short *of, int count)
{
    bool_t swapped = 0;
    for (int i = 0; i < count - 1; i++)
        if (of[i] > of[i + 1]) {
            short kept = of[i];
            of[i] = of[i + 1];
            of[i + 1] = kept;
            swapped = 1;
        }
    return swapped;
}

int main(void)
{
    int count = COUNT;
    while (pass(data, count) && count > 1)
        count--;
    return data[0];
}
