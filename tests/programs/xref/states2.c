int count;
int f(int n) { return n; }
int main(void) { f(1); f(count); return count; }
