#include <ctype.h>
#include <stdio.h>
#include "words.h"

/* Reads the next word in small letters; gives its length, or 0 at the end of the input. */
int next_word(char *word, int room)
{
    int c, n;

    do
        c = getchar();
    while (c != EOF && !isalpha(c));
    n = 0;
    while (c != EOF && isalpha(c)) {
        if (n < room - 1) {
            word[n] = tolower(c);
            n = n + 1;
        }
        c = getchar();
    }
    word[n] = '\0';
    return n;
}
