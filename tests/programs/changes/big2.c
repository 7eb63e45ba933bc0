char b[600000];
int main(void) {
    b[0] = 2;
    return b[0];
}
