#include <stdio.h>

struct mixed {
    char c;
    int i;
    short s;
};

union either {
    char c[5];
    int i;
    short s;
};

static struct mixed m;
static union either u;

/* How far a place stands behind another, in bytes. */
static int behind(void *from, void *to)
{
    return (char *)to - (char *)from;
}

int main(void)
{
    printf("%d %d %d %d %d\n", (int)sizeof(char), (int)sizeof(short), (int)sizeof(int), (int)sizeof(long), (int)sizeof(char *));
    printf("%d: %d %d %d\n", (int)sizeof(struct mixed), behind(&m, &m.c), behind(&m, &m.i), behind(&m, &m.s));
    printf("%d: %d %d %d\n", (int)sizeof(union either), behind(&u, &u.c), behind(&u, &u.i), behind(&u, &u.s));
    return 0;
}
