/* a binary search in a sorted table: the place of the key, and -1 where it is not there */
static const short table[15] = {2, 3, 5, 7, 11, 13, 17, 19, 23, 29, 31, 37, 41, 43, 47};
int key;

int find(int wanted) {
    int low = 0, high = 14;
    while (low <= high) {
        int middle = (low + high) / 2;
        if (table[middle] == wanted)
            return middle;
        if (table[middle] < wanted)
            low = middle + 1;
        else
            high = middle - 1;
    }
    return -1;
}

int main(void) {
    int place = find(key);
    return place;
}
