#include <stdio.h>
#include <string.h>

enum kind { NUMBER, TEXT, PAIR };

struct pair {
    short first, second;
};

struct value {
    enum kind kind;
    union {
        int number;
        char text[8];
        struct pair pair;
    } as;
};

static struct value values[3] = {{NUMBER, {42}}, {TEXT}, {PAIR}};

static void show(struct value *v)
{
    switch (v->kind) {
    case NUMBER:
        printf("%d\n", v->as.number);
        break;
    case TEXT:
        printf("%s\n", v->as.text);
        break;
    case PAIR:
        printf("%d and %d\n", v->as.pair.first, v->as.pair.second);
        break;
    }
}

int main(void)
{
    int i;

    strcpy(values[1].as.text, "seven");
    values[2].as.pair.first = 3;
    values[2].as.pair.second = -4;
    for (i = 0; i < 3; i++)
        show(&values[i]);
    printf("%d bytes\n", (int)sizeof(struct value));
    return 0;
}
