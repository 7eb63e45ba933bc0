void f(int k, int v, int w) { int a[1]; a[k] = v; a[0] = w; }
int main(void) { int x; int *p; x = 5; f(3, 1048752, 589816); p = &x; return *p; }
