/* a cyclic redundancy check of up to twelve bytes, byte by byte from a table of nibbles */
#include <stdint.h>
#define MOST 12
uint8_t message[MOST];
uint8_t length;
static const uint16_t table[16] = {
    0x0000, 0x1021, 0x2042, 0x3063, 0x4084, 0x50a5, 0x60c6, 0x70e7,
    0x8108, 0x9129, 0xa14a, 0xb16b, 0xc18c, 0xd1ad, 0xe1ce, 0xf1ef,
};

uint16_t crc(const uint8_t *at, int count)
{
    uint16_t sum = 0xffff;
    while (count--) {
        uint8_t byte = *at++;
        sum = (sum << 4) ^ table[(sum >> 12) ^ (byte >> 4)];
        sum = (sum << 4) ^ table[(sum >> 12) ^ (byte & 0x0f)];
    }
    return sum;
}

int main(void)
{
    return crc(message, length > MOST ? MOST : length);
}
