/* Formats, lists of arguments and streams, in the C that the product reads; saberlib.c has the functions of bytes, texts and
 * numbers, and this file stands on it.
 *
 * A function with a variable number of arguments gets those behind the named ones in a list: its caller opens one,
 * appends each argument, makes the call and closes the list. saber-prep writes calls so. */
#include <ctype.h>
#include <limits.h>
#include <stddef.h>
#include <stdio.h>
#include <stdlib.h>
#include <string.h>

extern int errno;
void abort(void);
long strtol(const char *text, char **end, int base);
size_t strnlen(const char *text, size_t size);
char *strerror(int number);

/* ---- lists of arguments ---- */

union saber_cell {
    unsigned long number;
    const void *pointer;
};

static union saber_cell cells[1024];
static int used;
static int begins[64];
static int lists;

static void give_up(const char *why)
{
    printf("saberlib: %s\n", why);
    abort();
}

void saber_open(void)
{
    if (lists == 64)
        give_up("too many lists of arguments at once");
    begins[lists] = used;
    lists++;
}

static union saber_cell *appended(void)
{
    if (used == 1024)
        give_up("too many arguments at once");
    used++;
    return &cells[used - 1];
}

void saber_number(unsigned long value)
{
    appended()->number = value;
}

void saber_pointer(const void *value)
{
    appended()->pointer = value;
}

void saber_close(void)
{
    lists--;
    used = begins[lists];
}

unsigned long saber_close_number(unsigned long result)
{
    saber_close();
    return result;
}

void *saber_close_pointer(const void *result)
{
    saber_close();
    return (void *)result;
}

union saber_cell *saber_first(void)
{
    if (lists == 0)
        give_up("a function wants a list of arguments, and its caller made none");
    return &cells[begins[lists - 1]];
}

union saber_cell *saber_next(union saber_cell **list)
{
    union saber_cell *cell;
    cell = *list;
    if (cell == &cells[used])
        give_up("more arguments are read than were given");
    *list = cell + 1;
    return cell;
}

/* ---- formats ---- */

/* Where formatted text goes: to `room` bytes at `to`, of which the last is kept for the 0, or to the output. */
struct sink {
    char *to;
    size_t room;
    size_t count;
    int output;
};

static void put(struct sink *sink, char byte)
{
    if (sink->output)
        putchar(byte);
    else if (sink->count + 1 < sink->room)
        sink->to[sink->count] = byte;
    sink->count++;
}

static void put_many(struct sink *sink, char byte, long count)
{
    for (; count > 0; count--)
        put(sink, byte);
}

/* A conversion as it stands in a format. */
struct conversion {
    int minus;
    int plus;
    int space;
    int other;
    int zero;
    long width;
    long precision;
    char kind;
};

static const char *flags(struct conversion *conversion, const char *at)
{
    for (; *at != 0 && strchr("-+ #0", *at) != 0; at++) {
        if (*at == '-')
            conversion->minus = 1;
        if (*at == '+')
            conversion->plus = 1;
        if (*at == ' ')
            conversion->space = 1;
        if (*at == '#')
            conversion->other = 1;
        if (*at == '0')
            conversion->zero = 1;
    }
    return at;
}

static const char *amount(long *value, const char *at, union saber_cell **list)
{
    char *end;
    if (*at == '*') {
        *value = (long)saber_next(list)->number;
        return at + 1;
    }
    *value = strtol(at, &end, 10);
    return end;
}

static const char *conversion_at(struct conversion *conversion, const char *at, union saber_cell **list)
{
    memset(conversion, 0, sizeof(*conversion));
    conversion->precision = -1;
    at = flags(conversion, at);
    if (*at == '*' || isdigit(*at))
        at = amount(&conversion->width, at, list);
    if (conversion->width < 0) {
        conversion->minus = 1;
        conversion->width = -conversion->width;
    }
    if (*at == '.') {
        if (at[1] == '*' || isdigit(at[1])) {
            at = amount(&conversion->precision, at + 1, list);
        } else {
            conversion->precision = 0;
            at++;
        }
    }
    while (*at != 0 && strchr("hljztq", *at) != 0)
        at++;
    conversion->kind = *at;
    return *at == 0 ? at : at + 1;
}

static void put_text(struct sink *sink, const struct conversion *conversion, const char *text)
{
    size_t length;
    size_t at;
    length = conversion->precision < 0 ? strlen(text) : strnlen(text, conversion->precision);
    if (!conversion->minus)
        put_many(sink, ' ', conversion->width - (long)length);
    for (at = 0; at < length; at++)
        put(sink, text[at]);
    if (conversion->minus)
        put_many(sink, ' ', conversion->width - (long)length);
}

static void put_byte(struct sink *sink, const struct conversion *conversion, char byte)
{
    if (!conversion->minus)
        put_many(sink, ' ', conversion->width - 1);
    put(sink, byte);
    if (conversion->minus)
        put_many(sink, ' ', conversion->width - 1);
}

/* The digits of a number from the last to the first; how many they are. */
static long digits_of(char *to, unsigned long value, unsigned int base, const char *names)
{
    long count;
    count = 0;
    while (value != 0) {
        to[count] = names[value % base];
        value = value / base;
        count++;
    }
    return count;
}

static void put_number(struct sink *sink, const struct conversion *conversion, const char *front, unsigned long value)
{
    char digits[40];
    long count;
    long zeros;
    long blanks;
    unsigned int base;
    base = conversion->kind == 'o' ? 8 : conversion->kind == 'x' || conversion->kind == 'X' ? 16 : 10;
    count = digits_of(digits, value, base, conversion->kind == 'X' ? "0123456789ABCDEF" : "0123456789abcdef");
    zeros = (conversion->precision < 0 ? 1 : conversion->precision) - count;
    if (conversion->kind == 'o' && conversion->other && zeros < 1)
        zeros = 1;
    if (zeros < 0)
        zeros = 0;
    blanks = conversion->width - count - zeros - (long)strlen(front);
    if (conversion->zero && !conversion->minus && conversion->precision < 0 && blanks > 0) {
        zeros = zeros + blanks;
        blanks = 0;
    }
    if (!conversion->minus)
        put_many(sink, ' ', blanks);
    for (; *front != 0; front++)
        put(sink, *front);
    put_many(sink, '0', zeros);
    for (; count > 0; count--)
        put(sink, digits[count - 1]);
    if (conversion->minus)
        put_many(sink, ' ', blanks);
}

static void put_signed(struct sink *sink, const struct conversion *conversion, long value)
{
    const char *front;
    front = value < 0 ? "-" : conversion->plus ? "+" : conversion->space ? " " : "";
    put_number(sink, conversion, front, value < 0 ? 0 - (unsigned long)value : (unsigned long)value);
}

static void put_unsigned(struct sink *sink, const struct conversion *conversion, unsigned long value)
{
    const char *front;
    front = "";
    if (conversion->other && value != 0 && conversion->kind == 'x')
        front = "0x";
    if (conversion->other && value != 0 && conversion->kind == 'X')
        front = "0X";
    put_number(sink, conversion, front, value);
}

static void converted(struct sink *sink, const struct conversion *conversion, union saber_cell **list)
{
    switch (conversion->kind) {
    case 'd':
    case 'i':
        put_signed(sink, conversion, (long)saber_next(list)->number);
        break;
    case 'u':
    case 'o':
    case 'x':
    case 'X':
        put_unsigned(sink, conversion, saber_next(list)->number);
        break;
    case 'c':
        put_byte(sink, conversion, (char)saber_next(list)->number);
        break;
    case 's':
        put_text(sink, conversion, saber_next(list)->pointer);
        break;
    case '%':
        put(sink, '%');
        break;
    default:
        give_up("a format has a conversion that is not known here");
    }
}

static int formatted(struct sink *sink, const char *format, union saber_cell *list)
{
    struct conversion conversion;
    sink->count = 0;
    while (*format != 0) {
        if (*format == '%') {
            format = conversion_at(&conversion, format + 1, &list);
            converted(sink, &conversion, &list);
        } else {
            put(sink, *format);
            format++;
        }
    }
    if (!sink->output && sink->room > 0)
        sink->to[sink->count < sink->room ? sink->count : sink->room - 1] = 0;
    return sink->count;
}

int vsnprintf(char *to, size_t size, const char *format, union saber_cell *list)
{
    struct sink sink;
    sink.to = to;
    sink.room = size;
    sink.output = 0;
    return formatted(&sink, format, list);
}

int vsprintf(char *to, const char *format, union saber_cell *list)
{
    return vsnprintf(to, UINT_MAX, format, list);
}

int vprintf(const char *format, union saber_cell *list)
{
    struct sink sink;
    sink.to = 0;
    sink.room = 0;
    sink.output = 1;
    return formatted(&sink, format, list);
}

int snprintf(char *to, size_t size, const char *format)
{
    return vsnprintf(to, size, format, saber_first());
}

int sprintf(char *to, const char *format)
{
    return vsprintf(to, format, saber_first());
}

/* ---- streams: all output is the program's output, input is the program's input, and there are no files ---- */

struct saber_file {
    int number;
    int waiting;
    int ended;
};

static struct saber_file files[3] = { { 0, -1, 0 }, { 1, -1, 0 }, { 2, -1, 0 } };

struct saber_file *stdin = &files[0];
struct saber_file *stdout = &files[1];
struct saber_file *stderr = &files[2];

static void writes(const struct saber_file *stream)
{
    if (stream->number == 0)
        give_up("the input is written to");
}

int vfprintf(struct saber_file *stream, const char *format, union saber_cell *list)
{
    writes(stream);
    return vprintf(format, list);
}

int fprintf(struct saber_file *stream, const char *format)
{
    return vfprintf(stream, format, saber_first());
}

struct saber_file *fopen(const char *name, const char *mode)
{
    errno = 2;
    return 0;
}

int fclose(struct saber_file *stream)
{
    return 0;
}

int fflush(struct saber_file *stream)
{
    return 0;
}

int fputc(int byte, struct saber_file *stream)
{
    writes(stream);
    return putchar(byte);
}

int putc(int byte, struct saber_file *stream)
{
    return fputc(byte, stream);
}

int fputs(const char *text, struct saber_file *stream)
{
    writes(stream);
    for (; *text != 0; text++)
        putchar(*text);
    return 1;
}

size_t fwrite(const void *place, size_t size, size_t count, struct saber_file *stream)
{
    const unsigned char *bytes;
    size_t at;
    writes(stream);
    bytes = place;
    for (at = 0; at < size * count; at++)
        putchar(bytes[at]);
    return size == 0 ? 0 : count;
}

int fgetc(struct saber_file *stream)
{
    int byte;
    if (stream->number != 0)
        give_up("an output is read from");
    byte = stream->waiting;
    if (byte >= 0) {
        stream->waiting = -1;
        return byte;
    }
    byte = getchar();
    if (byte == EOF)
        stream->ended = 1;
    return byte;
}

int getc(struct saber_file *stream)
{
    return fgetc(stream);
}

int ungetc(int byte, struct saber_file *stream)
{
    if (byte == EOF || stream->waiting >= 0)
        return EOF;
    stream->waiting = (unsigned char)byte;
    stream->ended = 0;
    return stream->waiting;
}

char *fgets(char *to, int size, struct saber_file *stream)
{
    int at;
    int byte;
    at = 0;
    byte = 0;
    while (at + 1 < size && byte != '\n') {
        byte = fgetc(stream);
        if (byte == EOF)
            break;
        to[at] = (char)byte;
        at++;
    }
    if (at == 0)
        return 0;
    to[at] = 0;
    return to;
}

size_t fread(void *place, size_t size, size_t count, struct saber_file *stream)
{
    unsigned char *bytes;
    size_t at;
    int byte;
    bytes = place;
    for (at = 0; at < size * count; at++) {
        byte = fgetc(stream);
        if (byte == EOF)
            break;
        bytes[at] = (unsigned char)byte;
    }
    return size == 0 ? 0 : at / size;
}

int feof(struct saber_file *stream)
{
    return stream->ended;
}

int ferror(struct saber_file *stream)
{
    return 0;
}

void clearerr(struct saber_file *stream)
{
    stream->ended = 0;
}

void perror(const char *text)
{
    if (text != 0 && *text != 0)
        printf("%s: ", text);
    printf("%s\n", strerror(errno));
}

int setvbuf(struct saber_file *stream, char *buffer, int mode, size_t size)
{
    return 0;
}
