void see(int *p);
void f(int k, int v, int w) { int a[1]; a[k] = v; a[0] = w; }
int g(void) { int big[64]; big[5] = 1; return big[5]; }
void k(void) { int z[4]; z[0] = 77; z[1] = 78; see(z); }
void h(void) { f(3, 1048732, 0); }
int main(void) { int i; { int arr[200]; for (i = 0; i < 200; i++) arr[i] = 1048788; } h(); return 0; }
