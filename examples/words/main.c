#include <stdio.h>
#include "words.h"

int main(void)
{
    char word[WORD_ROOM];
    const struct entry *e;
    int i;

    while (next_word(word, WORD_ROOM))
        count_word(word);
    for (i = 0; i < words_known(); i++) {
        e = entry_at(i);
        printf("%-8s %d\n", e->word, e->count);
    }
    return 0;
}
