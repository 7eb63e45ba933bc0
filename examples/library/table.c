/* How often each word was counted. */
#include <stdlib.h>
#include "pool.h"
#include "table.h"
#include "text.h"

#define ROOM 16

static struct entry *slots[ROOM];
static struct entry *first;

static struct entry **slot_of(const char *word)
{
    return &slots[word_hash(word) % ROOM];
}

static struct entry *find(const char *word)
{
    return *slot_of(word);
}

void count_word(const char *word)
{
    struct entry *e = find(word);

    if (e == NULL || !same_words(e->word, word)) {
        e = malloc(sizeof *e);
        e->word = keep_word(word);
        e->count = 0;
        e->next = first;
        first = e;
        *slot_of(word) = e;
    }
    e->count++;
}

int count_of(const char *word)
{
    struct entry *e = find(word);

    return e == NULL ? 0 : e->count;
}

struct entry *first_entry(void)
{
    return first;
}
