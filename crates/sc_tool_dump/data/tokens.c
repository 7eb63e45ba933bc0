#include "tokens.h"
#define twice(x) x x
int a = N;
twice(b)
