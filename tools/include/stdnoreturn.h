#ifndef SABER_STDNORETURN_H
#define SABER_STDNORETURN_H
#define noreturn _Noreturn
#endif
