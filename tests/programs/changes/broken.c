int total = 0;
int turn(int n) { return n }
