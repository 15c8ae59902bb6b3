/* twelve ticks of a scheduler: tasks that are due enter a ring, and each tick runs the oldest of it */
static const unsigned char periods[3] = {2, 3, 4};
unsigned char left[3];
unsigned char ring[4];
int oldest, waiting, lost;
int runs[3];

void enter(int task) {
    if (waiting == 4) {
        lost++;
        return;
    }
    ring[(oldest + waiting) % 4] = task;
    waiting++;
}

int main(void) {
    for (int tick = 0; tick < 12; tick++) {
        for (int task = 0; task < 3; task++) {
            if (left[task] == 0) {
                left[task] = periods[task];
                enter(task);
            }
            left[task]--;
        }
        if (waiting > 0) {
            runs[ring[oldest]]++;
            oldest = (oldest + 1) % 4;
            waiting--;
        }
    }
    return lost;
}
