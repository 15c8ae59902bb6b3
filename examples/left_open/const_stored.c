/* a store into a const object: the object is changed here */
const int table[2] = {3, 4};

int main(void) {
    int *place = (int *)table;
    *place = 9;
    return table[0];
}
