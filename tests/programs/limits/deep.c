#include <stdio.h>

int f(int i)
{
    if (i == 126)
        putchar('a');
    if (i == 127)
        putchar('b');
    return f(i + 1);
}

int main(void) { return f(0); }
