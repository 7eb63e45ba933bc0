#ifndef SABER_SYS_ENDIAN_H
#define SABER_SYS_ENDIAN_H
#include <endian.h>
#endif
