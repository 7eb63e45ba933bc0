int main(void) { int i = 7; return i; }
