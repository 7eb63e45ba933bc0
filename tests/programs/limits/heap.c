#include <stdio.h>
#include <stdlib.h>

int main(void)
{
    int i;
    char *p, *q;

    i = 0;
    p = malloc(100);
    q = p;
    while (p) {
        i++;
        q = p;
        p = malloc(100);
    }
    free(q);
    printf("%d %d\n", i, malloc(100) != 0);
    return 0;
}
