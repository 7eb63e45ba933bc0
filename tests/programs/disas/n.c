static int helper(int n) { return n / 2; }
int half(int n) { return helper(n); }
