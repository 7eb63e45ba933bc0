int f(int i) { return i + 1; } int main(void) { return f(f(1)); }
