int abs(int);
int half(int);
static int count = 3;
static int helper(int n) { count = count + n; return abs(n); }
int main(void) { int i; i = helper(-4); return half(i) + count; }
