/* a number that is read by its bytes: the least one is first here */
int word = 1;
int first;

int main(void) {
    unsigned char *byte = (unsigned char *)&word;
    first = byte[0];
    return first;
}
