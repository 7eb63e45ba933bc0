#ifndef SABER_MATH_H
#define SABER_MATH_H
double sin(double);
double cos(double);
double tan(double);
double asin(double);
double acos(double);
double atan(double);
double sinh(double);
double cosh(double);
double tanh(double);
double exp(double);
double log(double);
double log10(double);
double log2(double);
double sqrt(double);
double ceil(double);
double floor(double);
double fabs(double);
double round(double);
double trunc(double);
double pow(double, double);
double fmod(double, double);
double atan2(double, double);
double ldexp(double, int);
double frexp(double, int *);
double modf(double, double *);
#define HUGE_VAL 1e999
#define INFINITY 1e999f
#define NAN (INFINITY - INFINITY)
#define isnan(x) ((x) != (x))
#define isinf(x) ((x) == INFINITY || (x) == -INFINITY)
#define isfinite(x) (!isnan(x) && !isinf(x))
#define signbit(x) ((x) < 0)
#endif
