#include <stdlib.h>
#include <stdio.h>
struct item { int n; struct item *next; };
static struct item third = {30, 0};
static struct item second = {20, &third};
struct item *head = &second;
int leave(int n) { exit(n); return n; }
int deep(int n) { return n ? deep(n - 1) : 0; }
int say(int n) { printf("n is %d", n); return n; }
int spin(int n) { while (n > 0) n--; return 7; }
int *none(void) { return 0; }
int main(void) { return 9; }
