#ifndef SABER_FCNTL_H
#define SABER_FCNTL_H
#include <saber_types.h>
#include <saber_modes.h>
#include <saber_seek.h>
#define O_RDONLY 0
#define O_WRONLY 1
#define O_RDWR 2
#define O_CREAT 64
#define O_EXCL 128
#define O_TRUNC 512
#define O_APPEND 1024
#define O_NONBLOCK 2048
#define O_CLOEXEC 02000000
#define O_NOFOLLOW 0400000
#define O_LARGEFILE 0
#define F_GETFD 1
#define F_SETFD 2
#define F_GETFL 3
#define F_SETFL 4
#define FD_CLOEXEC 1
int creat(const char *, mode_t);
int open(const char *, int, ...);
int fcntl(int, int, ...);
#endif
