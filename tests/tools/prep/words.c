/* A program with words on its command line, and its input. */
#include <stdio.h>
#include <stdlib.h>
#include <string.h>

int main(int argc, char **argv)
{
    char line[8];
    printf("%d", argc);
    for (int i = 1; i < argc; i++)
        printf(" %s", argv[i]);
    printf(" %d\n", argv[argc] == NULL);
    while (fgets(line, sizeof line, stdin))
        fputs(line, stdout);
    printf("%d %d\n", feof(stdin) != 0, getc(stdin));
    if (argc > 2)
        exit(strtol(argv[1], NULL, 0));
    return 0;
}
