#include <stdio.h>

void f(int n);

void g(int n)
{
    printf("g%d\n", n);
    if (n < 10)
        f(n + 1);
}
