#ifndef SABER_MALLOC_H
#define SABER_MALLOC_H
#include <stdlib.h>
#endif
