/* The functions of saberlib.c and saberio.c, for programs that include it themselves. saber-prep needs no such include: its own
 * headers declare the same functions. */
#ifndef SABERLIB_H
#define SABERLIB_H

#include <stddef.h>

typedef union saber_cell {
    unsigned long number;
    const void *pointer;
} *saber_list;

typedef struct {
    int quot;
    int rem;
} div_t;

typedef struct {
    long quot;
    long rem;
} ldiv_t;

typedef struct saber_file FILE;
extern FILE *stdin;
extern FILE *stdout;
extern FILE *stderr;
extern int errno;

/* bytes and texts */
void *memchr(const void *place, int byte, size_t size);
void *memrchr(const void *place, int byte, size_t size);
void *memmem(const void *place, size_t size, const void *wanted, size_t length);
void *mempcpy(void *to, const void *from, size_t size);
char *strstr(const char *text, const char *wanted);
size_t strspn(const char *text, const char *set);
size_t strcspn(const char *text, const char *set);
char *strpbrk(const char *text, const char *set);
char *strtok(char *text, const char *set);
char *strtok_r(char *text, const char *set, char **rest);
char *strsep(char **text, const char *set);
char *strncat(char *to, const char *from, size_t size);
char *strdup(const char *text);
char *strndup(const char *text, size_t size);
size_t strnlen(const char *text, size_t size);
char *stpcpy(char *to, const char *from);
char *strchrnul(const char *text, int byte);
int strcoll(const char *left, const char *right);
int strcasecmp(const char *left, const char *right);
int strncasecmp(const char *left, const char *right, size_t size);
size_t strlcpy(char *to, const char *from, size_t size);
size_t strlcat(char *to, const char *from, size_t size);
char *strerror(int number);
int ffs(int value);
int isblank(int byte);

/* numbers, memory and order */
long strtol(const char *text, char **end, int base);
unsigned long strtoul(const char *text, char **end, int base);
long atol(const char *text);
long labs(long value);
void div(div_t *result, int left, int right);
void ldiv(ldiv_t *result, long left, long right);
void *reallocarray(void *place, size_t count, size_t size);
void qsort(void *base, size_t count, size_t size, int (*compare)(const void *, const void *));
void *bsearch(const void *key, const void *base, size_t count, size_t size, int (*compare)(const void *, const void *));
long random(void);
void srandom(unsigned int seed);
void abort(void);
void _Exit(int status);
char *getenv(const char *name);

/* lists of arguments */
void saber_open(void);
void saber_number(unsigned long value);
void saber_pointer(const void *value);
void saber_close(void);
unsigned long saber_close_number(unsigned long result);
void *saber_close_pointer(const void *result);
saber_list saber_first(void);
saber_list saber_next(saber_list *list);

/* streams: all output goes to the program's output, input is the program's input, there are no files */
int fprintf(FILE *stream, const char *format);
int sprintf(char *to, const char *format);
int snprintf(char *to, size_t size, const char *format);
int vprintf(const char *format, saber_list list);
int vfprintf(FILE *stream, const char *format, saber_list list);
int vsprintf(char *to, const char *format, saber_list list);
int vsnprintf(char *to, size_t size, const char *format, saber_list list);
FILE *fopen(const char *name, const char *mode);
int fclose(FILE *stream);
int fflush(FILE *stream);
int fputc(int byte, FILE *stream);
int putc(int byte, FILE *stream);
int fputs(const char *text, FILE *stream);
size_t fwrite(const void *place, size_t size, size_t count, FILE *stream);
int fgetc(FILE *stream);
int getc(FILE *stream);
int ungetc(int byte, FILE *stream);
char *fgets(char *to, int size, FILE *stream);
size_t fread(void *place, size_t size, size_t count, FILE *stream);
int feof(FILE *stream);
int ferror(FILE *stream);
void clearerr(FILE *stream);
void perror(const char *text);
int setvbuf(FILE *stream, char *buffer, int mode, size_t size);

#endif
