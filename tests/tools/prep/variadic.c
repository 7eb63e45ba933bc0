/* Functions with a variable number of arguments. */
#include <stdarg.h>
#include <stdio.h>
#include <stdlib.h>
#include <string.h>

struct log { char text[100]; int used; };

static int sum(int count, ...)
{
    va_list list;
    int result = 0;
    va_start(list, count);
    while (count-- > 0)
        result += va_arg(list, int);
    va_end(list);
    return result;
}

static char *joined(const char *first, ...)
{
    va_list list, again;
    size_t size = 1;
    va_start(list, first);
    va_copy(again, list);
    for (const char *it = first; it; it = va_arg(list, const char *))
        size += strlen(it);
    va_end(list);
    char *result = malloc(size);
    result[0] = 0;
    for (const char *it = first; it; it = va_arg(again, const char *))
        strcat(result, it);
    va_end(again);
    return result;
}

static void say(struct log *log, const char *format, ...) __attribute__((format(printf, 2, 3)));

static void say_list(struct log *log, const char *format, va_list list)
{
    log->used += vsnprintf(log->text + log->used, sizeof log->text - log->used, format, list);
}

static void say(struct log *log, const char *format, ...)
{
    va_list list;
    va_start(list, format);
    say_list(log, format, list);
    va_end(list);
}

static unsigned char tiny(const char *format, ...)
{
    va_list list;
    va_start(list, format);
    char c = (char)va_arg(list, int);
    va_end(list);
    return (unsigned char)(c + format[0]);
}

static void quiet(const char *format, ...) { (void)format; }

int main(void)
{
    struct log log = { "", 0 };
    int n = 3;
    char *text = joined("a", "bc", joined("(", "d", ")", (char *)0), (char *)NULL);
    printf("%d %d %s\n", sum(0), sum(4, 1, n, sum(2, 10, 20), -4), text);
    say(&log, "%d-%s", 42, "forty");
    say(&log, "[%5u|%-4x|%c|%%]", 7u, 255, 'q');
    quiet("never %d", n++);
    printf("%s %d %d\n", log.text, log.used, n);
    int (*through)(int, ...) = sum;
    printf("%d %u\n", through(2, 5, 6), tiny("A", 2));
    fprintf(stdout, "%s %ld\n", "to stdout", 9L);
    char small[6];
    int wanted = snprintf(small, sizeof small, "%s%d", "long", sprintf(log.text, "%03d", 12));
    printf("%s %d %s\n", small, wanted, log.text);
    free(text);
    return 0;
}
