#ifndef SABER_UNISTD_H
#define SABER_UNISTD_H
#include <sys/types.h>
#include <saber_seek.h>
#define R_OK 4
#define W_OK 2
#define X_OK 1
#define F_OK 0
#define _SC_PAGESIZE 30
#define STDIN_FILENO 0
#define STDOUT_FILENO 1
#define STDERR_FILENO 2
ssize_t read(int, void *, size_t);
ssize_t write(int, const void *, size_t);
int close(int);
off_t lseek(int, off_t, int);
int unlink(const char *);
int isatty(int);
pid_t getpid(void);
unsigned int sleep(unsigned int);
int usleep(unsigned int);
int access(const char *, int);
int ftruncate(int, off_t);
int fsync(int);
int dup(int);
int dup2(int, int);
int rmdir(const char *);
char *getcwd(char *, size_t);
uid_t getuid(void);
uid_t geteuid(void);
gid_t getgid(void);
pid_t getppid(void);
long sysconf(int);
void _exit(int);
int getopt(int, char *const *, const char *);
extern char *optarg;
extern int optind, opterr, optopt;
#endif
