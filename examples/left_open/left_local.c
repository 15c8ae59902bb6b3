/* a pointer to a local whose block has ended: the local keeps its value here */
int last;

int main(void) {
    int *kept;
    {
        int inner[4];
        inner[2] = 5;
        kept = inner;
    }
    {
        int next[4];
        next[2] = 9;
    }
    last = kept[2];
    return last;
}
