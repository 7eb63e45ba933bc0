#include <stdio.h>

int main(void)
{
    int c, words, numbers;

    words = numbers = 0;
between:
    c = getchar();
    if (c == EOF)
        goto done;
    if (c >= '0' && c <= '9')
        goto number;
    if (c == ' ' || c == '\n')
        goto between;
    words++;
word:
    c = getchar();
    if (c == EOF)
        goto done;
    if (c != ' ' && c != '\n')
        goto word;
    goto between;
number: {
        int value;

        value = 0;
    digit:
        value = value * 10 + (c - '0');
        c = getchar();
        if (c >= '0' && c <= '9')
            goto digit;
        printf("%d\n", value);
        numbers++;
        if (c != EOF)
            goto between;
    }
done:
    printf("%d words, %d numbers\n", words, numbers);
    return 0;
}
