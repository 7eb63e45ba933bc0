#include <stdio.h>

void g(int n);

void f(int n)
{
    printf("f%d\n", n);
    if (n < 10)
        g(n + 1);
}

int main(void)
{
    f(1);
    return 10;
}
