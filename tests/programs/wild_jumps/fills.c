#include <stdio.h>
void h(void);
int main(void) {
  int arr[200]; int i;
  for (i = 0; i < 200; i++) arr[i] = 1048788;
  h();
  printf("%d\n", arr[0]);
  return 0;
}
