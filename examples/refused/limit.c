short table[9000];

int main(void) {
    return table[0];
}
