int half(int);
static int count = 3;
int main(void) { count = count + 1; return half(12); }
