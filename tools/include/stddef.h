#ifndef SABER_STDDEF_H
#define SABER_STDDEF_H
typedef unsigned int size_t;
typedef int ptrdiff_t;
#ifndef SABER_WCHAR
#define SABER_WCHAR
typedef int wchar_t;
#endif
#define NULL ((void *)0)
#define offsetof(type, member) __builtin_offsetof(type, member)
#endif
