#include <stdio.h>

int main(void)
{
    int i;

    for (i = 0; i < 1000; i++)
        printf("0123456789");
    return 0;
}
