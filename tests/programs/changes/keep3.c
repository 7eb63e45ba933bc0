static int n = 0;
static short k = 7;
int *p;
const int limit = 3;
