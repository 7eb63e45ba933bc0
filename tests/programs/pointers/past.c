extern char c;
char *end = &c + 1;
char c = 7;

int main(void) { return end[-1]; }
