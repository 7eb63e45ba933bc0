#include <string.h>
#include "words.h"

static struct entry table[TABLE_ROOM];
static int used;

/* One more of this word; a word that finds no room is not counted. */
void count_word(const char *word)
{
    int i;

    for (i = 0; i < used; i++)
        if (strcmp(table[i].word, word) == 0) {
            table[i].count++;
            return;
        }
    if (used < TABLE_ROOM) {
        strcpy(table[used].word, word);
        table[used].count = 1;
        used++;
    }
}

int words_known(void)
{
    return used;
}

const struct entry *entry_at(int n)
{
    return &table[n];
}
