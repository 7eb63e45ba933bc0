/* Room for words: each gets a copy of its own. */
#include <stdlib.h>
#include "pool.h"
#include "text.h"

static int kept;

char *keep_word(const char *word)
{
    int n = word_length(word);
    char *copy = malloc(n);
    int i;

    for (i = 0; i <= n; i++)
        copy[i] = word[i];
    kept++;
    return copy;
}

int words_kept(void)
{
    return kept;
}
