#ifndef SABER_STDALIGN_H
#define SABER_STDALIGN_H
#define alignas _Alignas
#define alignof _Alignof
#endif
