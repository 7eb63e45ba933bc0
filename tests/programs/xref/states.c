int count;
int f(int n) { count = n; return n; }
int main(void) { f(1); f(count); return 0; }
