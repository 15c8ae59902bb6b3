/* a control of speed, ten steps of it: proportional and integral, both within limits */
static const int wanted = 1500;
short measured[10];
int scale;
int sum;

int limited(int value, int low, int high) {
    if (value < low)
        return low;
    if (value > high)
        return high;
    return value;
}

int step(int speed) {
    int error = wanted - speed;
    sum = limited(sum + error, -4000, 4000);
    int drive = limited((6 * error + sum) / scale, 0, 1023);
    return drive;
}

int main(void) {
    int drive = 0;
    for (int i = 0; i < 10; i++)
        drive = step(measured[i]);
    return drive;
}
