union u { int a; };
void f(union u x);
