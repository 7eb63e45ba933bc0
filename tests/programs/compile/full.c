int full(void) { return 1; }
