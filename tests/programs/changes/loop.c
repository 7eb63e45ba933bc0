#include <stdio.h>
void tick(void);
int total = 0;
void turn(int n) {
    tick();
    total = total + n;
    printf("old %d\n", total);
}
int main(void) {
    int i;
    for (i = 1; i <= 3; i++)
        turn(i);
    return total;
}
