#include <stdio.h>

/* What printf writes, and how many bytes it says that it wrote. */
int main(void)
{
    printf(" %d\n", printf("%d+%u\n", -1, 7u));
    printf(" %d\n", printf("%5d|%-4x|", 42, 255u));
    printf(" %d\n", printf("%c%%%d", 65, 0));
    printf(" %d\n", printf("%d %d %.3s", 1, 2, "seven"));
    printf("|%d\n", printf("%*d", -4, 7));
    return 0;
}
