int f(int t);
void see(void) { }
void see2(int *p) { int i; i = *p; i = i; }
int main(void) { return f(1048804); }
