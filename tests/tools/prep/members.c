/* Members without a name, bit-fields in odd places, and what C11 has besides. */
#include <stdalign.h>
#include <stdbool.h>
#include <stddef.h>
#include <stdio.h>
#include <stdlib.h>

#define container_of(place, type, member) ((type *)((char *)(place) - offsetof(type, member)))

enum kind { NUMBER, TEXT };

struct value {
    enum kind kind;
    union {
        int number;
        const char *text;
        struct { short low, high; };
    };
    struct { unsigned char mark; bool shown : 1; };
    struct value *next;
};

struct link { struct link *next; };
struct holder { int id; struct link link; };

static struct value *push(struct value *list, struct value value)
{
    struct value *made = malloc(sizeof *made);
    if (!made)
        abort();
    *made = value;
    made->next = list;
    return made;
}

static void show(const struct value *list)
{
    for (; list; list = list->next) {
        if (list->kind == TEXT)
            printf("%s", list->text);
        else
            printf("%d:%d", list->number, (*list).low);
        printf(" %c%d\n", list->mark, list->shown);
    }
}

int main(void)
{
    struct value *list = NULL;
    list = push(list, (struct value){ .kind = NUMBER, .number = 65539, .mark = 'n' });
    list = push(list, (struct value){ .kind = TEXT, .text = "text", .mark = 't', .shown = 4 });
    struct value last = { .low = 7, .high = 1, .shown = true };
    last.mark = (unsigned char)('a' + last.high);
    list = push(list, last);
    show(list);
    while (list) {
        struct value *next = list->next;
        free(list);
        list = next;
    }
    struct holder holder = { .id = 9, .link = { NULL } };
    struct link *link = &holder.link;
    printf("%d %zu %zu %zu\n", container_of(link, struct holder, link)->id, alignof(short), alignof(struct value), _Alignof(bool));
    return 0;
}
