double unused(double);
static inline double half(double x) { return x / 2; }
struct real { int n; };
