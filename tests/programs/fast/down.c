#include <stdio.h>

int f(int n)
{
    if (n == 2046)
        putchar('a');
    if (n == 2047)
        putchar('b');
    return f(n + 1);
}

int main(void)
{
    return f(0);
}
