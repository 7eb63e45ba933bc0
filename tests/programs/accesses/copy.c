struct pair { int a, b; };

void copy(struct pair *to, struct pair *from) { *to = *from; }
