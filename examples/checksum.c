/* Fletcher's checksum, over as many bytes of the buffer as the length says */
unsigned char buffer[16];
int length;

int main(void) {
    int first = 0, second = 0;
    for (int i = 0; i < length; i++) {
        first = (first + buffer[i]) % 255;
        second = (second + first) % 255;
    }
    return 256 * second + first;
}
