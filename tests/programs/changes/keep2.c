static char front = 'x';
static int n = 0;
const int limit = 4;
int *p;
static int k = 0;
int count(void) { static int calls = 20; calls = calls + 2; return calls; }
