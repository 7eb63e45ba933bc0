#include <stdio.h>
void tick(void);
int total = 0;
static int turns = 0;
void turn(int n) {
    tick();
    turns = turns + 1;
    total = total + 10 * n;
    printf("new %d %d\n", turns, total);
}
int main(void) {
    return 1;
}
