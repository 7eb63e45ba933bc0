/* Entries in the order of their words. */
#include <stdio.h>
#include "list.h"
#include "table.h"

static int is_before(const char *a, const char *b)
{
    while (*a != 0 && *a == *b) {
        a++;
        b++;
    }
    return *a < *b;
}

static struct entry *least_behind(const char *word)
{
    struct entry *e, *least = NULL;

    for (e = first_entry(); e != NULL; e = e->next)
        if (word == NULL || is_before(word, e->word))
            if (least == NULL || is_before(e->word, least->word))
                least = e;
    return least;
}

void print_sorted(void)
{
    struct entry *e;

    for (e = least_behind(NULL); e != NULL; e = least_behind(e->word))
        printf("%s %d\n", e->word, e->count);
}
