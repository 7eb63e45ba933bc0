/* Entries in the order of their words. */
void print_sorted(void);
