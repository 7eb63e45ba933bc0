int puts(void);

int main(void) { return puts(); }
