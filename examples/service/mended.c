#include <stdio.h>
#include "reply.h"

static int served;
static int numbers;

void reply(int request)
{
    served = served + 1;
    if (request >= 'a' && request <= 'z')
        printf("%d: %c\n", served, request - 'a' + 'A');
    else if (request >= '0' && request <= '9') {
        numbers = numbers + 1;
        printf("%d: number %d is %c\n", served, numbers, request);
    } else
        printf("%d: unknown\n", served);
}
