#include <stdio.h>
int add(int a, int b);
int main(void) {
    int x = 1;
    x = add(x, 2);
    printf("%d\n", x);
    x = add(x, 3);
    return x;
}
