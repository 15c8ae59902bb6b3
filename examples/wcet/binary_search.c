/* a binary search in a table of fifteen keys */
#define COUNT 15

enum { MISSING = -1 };

static const int keys[COUNT] = {1, 5, 6, 7, 8, 9, 12, 13, 14, 15, 18, 20, 25, 30, 41};
int key;

int binary_search(int wanted)
{
    int low = 0, high = COUNT - 1, found = MISSING;
    while (low <= high) {
        int middle = (low + high) >> 1;
        if (keys[middle] == wanted) {
            high = low - 1;
            found = middle;
        } else if (keys[middle] > wanted)
            high = middle - 1;
        else
            low = middle + 1;
    }
    return found;
}

int main(void)
{
    return binary_search(key);
}
