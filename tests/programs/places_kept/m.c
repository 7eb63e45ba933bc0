#include <stdlib.h>
void show(char *p);
void keep(char *p);
void same(char *p);
int *g(void) { int x; x = 3; return &x; }
int *live(void) { int x; x = 4; same((char *)&x); return &x; }
void h(void) { }
int main(void) {
  char *a; char *b; int *p;
  a = malloc(10); b = malloc(10); *b = 1; free(a);
  p = g();
  h();
  show(b);
  keep((char *)p);
  live();
  return 0;
}
