int main(void) { int a[4] = {1}; return a[3]; }
