void see(int *p) {
  int i;
  i = *p;
  i = i + 1;
}
