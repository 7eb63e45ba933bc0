/* Reading of the input. */
#include <stdio.h>
#include <string.h>

int main(void)
{
    char line[6], block[4];
    int c = getc(stdin);
    printf("%c", c);
    c = ungetc('!', stdin);
    printf("%d%c\n", c, fgetc(stdin));
    while (fgets(line, sizeof line, stdin) && strcmp(line, "end\n") != 0)
        printf("<%s>", line);
    printf("\n%u ", (unsigned)fread(block, 2, 2, stdin));
    printf("%.4s %d ", block, feof(stdin));
    printf("%u ", (unsigned)fread(block, 1, 4, stdin));
    printf("%d ", feof(stdin) != 0);
    printf("%d ", fgetc(stdin));
    printf("%d\n", fgets(line, 6, stdin) == NULL);
    clearerr(stdin);
    printf("%d %d\n", feof(stdin), fopen("no such folder/no such file", "r") == NULL);
    return 3;
}
