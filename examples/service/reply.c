#include <stdio.h>
#include "reply.h"

static int served;

void reply(int request)
{
    served = served + 1;
    if (request >= 'a' && request <= 'z')
        printf("%d: %c\n", served, request - 'a' + 'A');
    else
        printf("%d: unknown\n", served);
}
