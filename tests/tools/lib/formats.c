/* Formats into texts and to streams. */
#include <stdarg.h>
#include <stdio.h>
#include <string.h>

static char room[200];

static const char *made(const char *format, ...)
{
    va_list list;
    va_start(list, format);
    int length = vsnprintf(room, sizeof room, format, list);
    va_end(list);
    fprintf(stdout, "%d=", length);
    return room;
}

int main(void)
{
    const char *flags[] = { "", "-", "+", " ", "0", "#", "-0", "+ ", "#0", "+-" };
    const char *sizes[] = { "", "7", ".0", ".3", "9.4" };
    const char *kinds = "duxXo";
    const int values[] = { 0, 1, -1, 42, 2147483647, -2147483647 - 1 };
    for (unsigned f = 0; f < sizeof flags / sizeof *flags; f++)
        for (unsigned s = 0; s < sizeof sizes / sizeof *sizes; s++)
            for (const char *k = kinds; *k; k++) {
                char format[20];
                snprintf(format, sizeof format, "%%%s%sl%c|", flags[f], sizes[s], *k);
                for (unsigned v = 0; v < 6; v++) {
                    snprintf(room, sizeof room, format, (long)values[v]);
                    fputs(room, stdout);
                }
                putchar('\n');
            }
    puts(made("%s|%5s|%-5s|%.2s|%7.3s|%c|%3c|%-3c|%%", "abc", "de", "fg", "hij", "klmno", 'p', 'q', 'r'));
    puts(made("%*d|%-*d|%.*d|%*s|%d", 5, 1, 5, 2, 3, 4, -4, "x", 7));
    printf("%d %s\n", snprintf(room, 5, "%d", 1234567), room);
    printf("%d %d\n", snprintf(NULL, 0, "%s", "count"), snprintf(room, 1, "x"));
    printf("%d [%s]\n", sprintf(room, "%d%s", 12, "ab"), room);
    fprintf(stderr, "%s", "");
    fwrite("wr\n", 1, 3, stdout);
    putc('p', stdout);
    fputc('\n', stdout);
    return fflush(stdout);
}
