#ifndef SABER_WCHAR_H
#define SABER_WCHAR_H
#include <stddef.h>
#include <stdarg.h>
typedef int wint_t;
typedef struct { int state; } mbstate_t;
#define WEOF (-1)
#define WCHAR_MIN (-2147483647 - 1)
#define WCHAR_MAX 2147483647
size_t wcslen(const wchar_t *);
wchar_t *wcschr(const wchar_t *, wchar_t);
int wcscmp(const wchar_t *, const wchar_t *);
int wcsncmp(const wchar_t *, const wchar_t *, size_t);
wchar_t *wcscpy(wchar_t *, const wchar_t *);
size_t mbrtowc(wchar_t *, const char *, size_t, mbstate_t *);
size_t wcrtomb(char *, wchar_t, mbstate_t *);
int mbtowc(wchar_t *, const char *, size_t);
int wctomb(char *, wchar_t);
#endif
