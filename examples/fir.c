/* a low-pass filter of 8 taps in fixed point, with 15 bits after the point */
static const short taps[8] = {-512, 1024, 5120, 10752, 10752, 5120, 1024, -512};
short samples[23];
short filtered[16];

short saturated(int value) {
    if (value > 32767)
        return 32767;
    if (value < -32768)
        return -32768;
    return value;
}

int main(void) {
    for (int i = 0; i < 16; i++) {
        int sum = 1 << 14;      // half a unit, so that the shift rounds
        for (int k = 0; k < 8; k++)
            sum += taps[k] * samples[i + 7 - k];
        filtered[i] = saturated(sum >> 15);
    }
    return filtered[15];
}
