/* a char without a word for its sign has one here */
char level = 200;

int main(void) {
    return level < 0;
}
