#include <stdio.h>
#include "queue.h"

int main(void)
{
    struct queue q;
    int i;

    queue_open(&q, 2);
    for (i = 1; i <= 6; i++)
        printf("put %d, %d wait\n", i, queue_put(&q, i));
    for (i = 1; i <= 3; i++)
        printf("took %d\n", queue_take(&q));
    queue_close(&q);
    return 0;
}
