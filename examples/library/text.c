/* Words of letters. */
#include "text.h"

int word_length(const char *word)
{
    int n = 0;

    while (word[n] != 0)
        n++;
    return n;
}

int same_words(const char *a, const char *b)
{
    while (*a != 0 && *a == *b) {
        a++;
        b++;
    }
    return *a == *b;
}

unsigned word_hash(const char *word)
{
    unsigned h = 5381;

    while (*word != 0)
        h = h * 33 + (unsigned char)*word++;
    return h;
}
