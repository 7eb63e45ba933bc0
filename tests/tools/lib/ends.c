/* A program that aborts. */
#include <stdio.h>
#include <stdlib.h>

int main(void)
{
    puts("before");
    fflush(stdout);
    if (getenv("a name that no environment has") == NULL)
        abort();
    puts("after");
    return 0;
}
