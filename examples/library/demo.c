/* Counts the words of a line. */
#include <stdio.h>
#include "list.h"
#include "pool.h"
#include "table.h"

static const char *line[] = { "the", "cat", "and", "the", "dog", "and", "the", "bird", NULL };

int main(void)
{
    int i;

    for (i = 0; line[i] != NULL; i++)
        count_word(line[i]);
    print_sorted();
    printf("%d words, %d kept\n", i, words_kept());
    return 0;
}
