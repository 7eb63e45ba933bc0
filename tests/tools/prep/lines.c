#include "lines.h"
#include <stdlib.h>
#define LONG_MACRO(x) \
    do {              \
        x;            \
    } while (0)

/* a comment
   of two lines */
int main(void)
{
    int *p = malloc(3 * sizeof *p);
    for (int i = 0; i < 3; i++)
        LONG_MACRO(p[i] = i);

    int spare = 1;
    if (inside(p, 2) != 3)
        return 1;
    free(p);
    return p[0] + spare;
}
