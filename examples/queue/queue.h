struct queue {
    int *items;
    int room;
    int first;
    int count;
};

void queue_open(struct queue *q, int room);
int queue_put(struct queue *q, int item);
int queue_take(struct queue *q);
void queue_close(struct queue *q);
