#ifndef SABER_MEMORY_H
#define SABER_MEMORY_H
#include <string.h>
#endif
