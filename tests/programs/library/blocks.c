#include <stdio.h>
#include <stdlib.h>

/* The heap has 64 bytes. */
int main(void)
{
    char *first;
    int *zeros;
    first = malloc(15);
    zeros = calloc(3, sizeof(int));
    printf("%d %d\n", first != NULL, zeros != NULL && zeros[0] == 0 && zeros[2] == 0);
    printf("%d\n", malloc(40) == NULL);
    free(first);
    zeros[1] = 7;
    zeros = realloc(zeros, 13);
    printf("%d\n", zeros != NULL && zeros[1] == 7);
    free(first);
    return 0;
}
