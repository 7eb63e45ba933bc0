#ifndef SABER_STDARG_H
#define SABER_STDARG_H
/* Arguments behind the last named one wait in a list of saberlib.c. */
typedef union saber_cell *va_list;
va_list saber_first(void);
union saber_cell *saber_next(va_list *);
#define va_start(list, last) ((void)((list) = saber_first()))
#define va_arg(list, type) (*(type *)(void *)saber_next(&(list)))
#define va_copy(to, from) ((void)((to) = (from)))
#define __va_copy(to, from) ((void)((to) = (from)))
#define va_end(list) ((void)0)
#define __gnuc_va_list va_list
#endif
