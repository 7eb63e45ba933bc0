int main(void) { return *(int *)0; }
