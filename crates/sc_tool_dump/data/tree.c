#include "tree.h"

static word last, count;

word next(word step)
{
    if (step) {
        word *place = &last;
        *place += step * (word)3;
    } else
        twice(count++;)
    return last;
}
