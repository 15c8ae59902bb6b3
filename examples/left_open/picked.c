/* an assignment whose right side changes the index on the left: the call is made first here */
int k;
int limit[2] = {1, 1};

int pick(void) {
    k = 1;
    return 90;
}

int main(void) {
    limit[k] = pick();
    int n = 0;
    for (int i = 0; i < limit[1]; i++)
        n++;
    return n;
}
