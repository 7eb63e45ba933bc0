static int n = 0;
static int k = 0;
const int limit = 3;
int *p;
int count(void) { static int calls = 10; calls = calls + 1; return calls; }
int main(void) {
    n = 5;
    k = 6;
    p = &k;
    count();
    n = n + 1;
    return n + limit + *p + count();
}
