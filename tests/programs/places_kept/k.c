#include <stdio.h>
unsigned long kept;
unsigned long address(char *p) {
  unsigned char *q = (unsigned char *)&p;
  return q[0] + 256ul * q[1] + 65536ul * q[2] + 16777216ul * q[3];
}
void show(char *p) { printf("%lx\n", address(p)); }
void keep(char *p) { kept = address(p); }
void same(char *p) { printf("%d\n", address(p) == kept); }
