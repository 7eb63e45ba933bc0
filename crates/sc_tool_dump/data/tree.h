#define twice(x) x x
typedef unsigned int word;
