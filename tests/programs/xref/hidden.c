int n;
extern int n;
int twice(int n) { return n + n; }
int plain(void) { return n; }
int inner(void) { int n = 1; return n; }
int outer(void) { extern int n; return n; }
int again(void) { int n = 1; { extern int n; n = 2; } return n; }
enum { SIZE = sizeof n };
int constant(void) { enum { n = 3 }; return n; }
int later(void) { int k = n; int n = 0; return k + n; }
struct s { int n; } s;
int member(void) { return s.n; }
int jump(void) { goto n; n: return SIZE; }
int sized[sizeof n];
typedef int F(int x);
F f;
int f(int x) { return x; }
int direct(void) { return f(1) + (f)(2); }
int (*through)(int x) = f;
int called(void) { return through(1) + (*through)(2); }
int own(void) { int f(int x); return f(1); }
extern int away;
extern int given = 3;
static int kept;
int main(void) { return 0; }
