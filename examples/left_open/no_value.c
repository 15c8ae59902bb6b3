/* a function that ends without its value: 0 here */
int known = 0;
int limit;

int chosen(int which) {
    if (which == 1)
        return 7;
}

int main(void) {
    limit = chosen(known);
    return limit;
}
