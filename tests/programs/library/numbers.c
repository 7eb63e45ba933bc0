#include <stdio.h>
#include <stdlib.h>
int main(void)
{
    printf("%d %d %d\n", atoi(" \t-42x"), atoi("+7"), atoi("x"));
    printf("%d %d\n", atoi("2147483647"), atoi("-2147483648"));
    printf("%d %d\n", abs(-7), abs(2147483647));
    return atoi("2147483648");
}
