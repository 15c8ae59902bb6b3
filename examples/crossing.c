/* the lights of a crossing: cars have green until a pedestrian presses the button */
unsigned char button[12];       // for each second, whether it is pressed
int walks;

int main(void) {
    int state = 0, left = 0;
    for (int second = 0; second < 12; second++) {
        switch (state) {
        case 0:                 // green for cars
            if (button[second]) {
                state = 1;
                left = 2;
            }
            break;
        case 1:                 // yellow
            left--;
            if (left == 0) {
                state = 2;
                left = 3;
                walks++;
            }
            break;
        case 2:                 // green for pedestrians
            left--;
            if (left == 0)
                state = 0;
            break;
        default:                // no such state
            state = 0;
        }
    }
    return state;
}
