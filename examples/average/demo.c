#include <stdio.h>

void add(int number);
int average(void);

int main(void)
{
    add(3);
    add(8);
    printf("average %d\n", average());
    return 0;
}
