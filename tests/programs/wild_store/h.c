void g(int *p);
int main(void) { int a; a = 0; g(&a); return a; }
