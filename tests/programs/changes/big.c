char a[600000];
int main(void) {
    a[0] = 1;
    return a[0];
}
