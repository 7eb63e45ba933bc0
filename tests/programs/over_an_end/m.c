void look(int *q, int **p);
int main(void) {
  char b[2]; int x; int **p; int *q;
  x = 5; p = (int **)(void *)b; *p = &x; q = *p;
  look(q, p);
  return 0;
}
