#include <stdlib.h>
#include "queue.h"

/* A queue of integers in a ring that grows by doubling. */
void queue_open(struct queue *q, int room)
{
    q->items = malloc(room * sizeof(int));
    q->room = room;
    q->first = 0;
    q->count = 0;
}

static void grow(struct queue *q)
{
    int *wider;
    int i;

    wider = malloc(2 * q->room);
    for (i = 0; i < q->count; i++)
        wider[i] = q->items[(q->first + i) % q->room];
    free(q->items);
    q->items = wider;
    q->room = 2 * q->room;
}

int queue_put(struct queue *q, int item)
{
    if (q->count == q->room)
        grow(q);
    q->items[(q->first + q->count) % q->room] = item;
    q->count++;
    return q->count;
}

int queue_take(struct queue *q)
{
    int item;

    item = q->items[q->first];
    q->first = (q->first + 1) % q->room;
    q->count--;
    return item;
}

void queue_close(struct queue *q)
{
    free(q->items);
    q->items = 0;
}
