int putchar(int); int main(void) { putchar(65); return 0; }
