int main(void) {
    return 4294967296;
}
