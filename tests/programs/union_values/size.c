union wide { char c[5]; int i; };

int main(void) { return sizeof(union wide); }
