/* a local without an initialiser keeps its value where its block is entered again */
int main(void) {
    int sum = 0;
    for (int i = 0; i < 3; i++) {
        int kept;
        if (i == 0)
            kept = 5;
        sum += kept;
    }
    return sum;
}
