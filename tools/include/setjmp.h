#ifndef SABER_SETJMP_H
#define SABER_SETJMP_H
typedef int jmp_buf[16];
int setjmp(jmp_buf);
void longjmp(jmp_buf, int);
#endif
