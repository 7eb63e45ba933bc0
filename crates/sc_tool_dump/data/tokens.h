#define N 7
int q;
