#ifndef SABER_SEEK_H
#define SABER_SEEK_H
#define SEEK_SET 0
#define SEEK_CUR 1
#define SEEK_END 2
#endif
