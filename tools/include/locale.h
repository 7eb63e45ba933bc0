#ifndef SABER_LOCALE_H
#define SABER_LOCALE_H
#define LC_ALL 6
#define LC_CTYPE 0
#define LC_NUMERIC 1
struct lconv { char *decimal_point; char *thousands_sep; };
char *setlocale(int, const char *);
struct lconv *localeconv(void);
#endif
