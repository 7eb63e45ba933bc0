#include <ctype.h>
#include <stdio.h>
#include <stdlib.h>
#include <string.h>

static char first[16];
static char second[16];

/* Each line begins from these two texts. */
static void fill(void)
{
    strcpy(first, "abb");
    strcpy(second, "abc");
}

int main(void)
{
    fill();
    printf("%d\n", (int)strlen(second));
    printf("%d %s\n", strcpy(first + 8, second) == first + 8, first + 8);
    printf("%d %s\n", strcat(first, second) == first, first);
    fill();
    printf("%d %d\n", strcmp(first, second) < 0, strcmp(second, first) > 0);
    printf("%d\n", strchr(second, 'c') == second + 2);
    printf("%d\n", strrchr(second, 'A') == NULL);
    printf("%d %s\n", memcpy(first, first + 2, 2) == first, first + 1);
    fill();
    printf("%d %c%c%c%c\n", memmove(first + 1, first, 3) == first + 1, first[0], first[1], first[2], first[3]);
    printf("%d %d\n", isdigit('7') != 0, isdigit('x') != 0);
    exit(3);
}
