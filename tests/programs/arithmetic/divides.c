#include <stdio.h>

int main(void)
{
    int x = -7;

    printf("%d %d\n", x / 2, x % 2);
    return 0;
}
