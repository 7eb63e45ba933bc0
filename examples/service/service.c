#include <stdio.h>
#include "reply.h"

int main(void)
{
    int request;

    while ((request = getchar()) != EOF)
        if (request != '\n')
            reply(request);
    return 0;
}
