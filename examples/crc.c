/* the checksum CRC-16 (CCITT) over the first bytes of a message */
unsigned char message[8];
int length;
unsigned short crc;

void take(unsigned char byte) {
    crc ^= byte << 8;
    for (int bit = 0; bit < 8; bit++) {
        if (crc & 0x8000)
            crc = crc << 1 ^ 0x1021;
        else
            crc <<= 1;
    }
}

int main(void) {
    crc = 0xFFFF;
    for (int i = 0; i < length; i++)
        take(message[i]);
    return crc;
}
