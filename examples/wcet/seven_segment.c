/* a number on a display of five digits of seven segments, without zeros in front */
#define DIGITS 5
static const unsigned char segments[10] = {0x3f, 0x06, 0x5b, 0x4f, 0x66, 0x6d, 0x7d, 0x07, 0x7f, 0x6f};
unsigned short number;
unsigned char display[DIGITS];

int main(void)
{
    unsigned int left = number;
    int at = DIGITS;
    do {
        display[--at] = segments[left % 10];
        left /= 10;
    } while (left != 0 && at > 0);
    while (at > 0)
        display[--at] = 0;
    return display[DIGITS - 1];
}
