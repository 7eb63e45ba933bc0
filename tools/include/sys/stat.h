#ifndef SABER_SYS_STAT_H
#define SABER_SYS_STAT_H
#include <sys/types.h>
#include <saber_modes.h>
struct stat {
    dev_t st_dev;
    ino_t st_ino;
    mode_t st_mode;
    nlink_t st_nlink;
    uid_t st_uid;
    gid_t st_gid;
    off_t st_size;
    blksize_t st_blksize;
    blkcnt_t st_blocks;
    time_t st_atime, st_mtime, st_ctime;
};
int lstat(const char *, struct stat *);
int mkdir(const char *, mode_t);
int chmod(const char *, mode_t);
mode_t umask(mode_t);
int stat(const char *, struct stat *);
int fstat(int, struct stat *);
#endif
