#include <stdio.h>
int a_name_that_is_much_longer_than_sixty_three_letters_and_so_is_cut_one = 1;
int a_name_that_is_much_longer_than_sixty_three_letters_and_so_is_cut_two = 2;
struct p { int a_member_that_is_much_longer_than_sixty_three_letters_and_so_is_cut; int *q; };
static int h(int a_parameter_that_is_just_below_sixty_three_letters_but_with_more) { return a_parameter_that_is_just_below_sixty_three_letters_but_with_more; }
static struct p g(struct p a_parameter_that_is_just_below_sixty_three_letters_but_g) { return a_parameter_that_is_just_below_sixty_three_letters_but_g; }
int main(void)
{
    int a = 3, b = 2, *p = &b, c[3] = {1, 2, 3};
    struct p s = {1, 0};
    printf("%d %d\n", a - - b, a + + b); printf("%d\n", a - -b); printf("%d\n", a--  - --b); printf("%d\n", a / *p);
    printf("%d\n", 0xe + 1); printf("%d %d\n", 0xE - a, a & &c[1] != p); printf("%s%s%s\n", "a" "b", "\x41" "1", "c");
    s = g(s); s.a_member_that_is_much_longer_than_sixty_three_letters_and_so_is_cut += 4; s.q = &a;
    printf("%d %d\n", a <<= 1, a >> 1 > 0); printf("%d\n", *s.q * - *p); printf("%c%d\n", 'x', '"');
    printf("%d%d%d%d\n", h(7), a_name_that_is_much_longer_than_sixty_three_letters_and_so_is_cut_one, a_name_that_is_much_longer_than_sixty_three_letters_and_so_is_cut_two, s.a_member_that_is_much_longer_than_sixty_three_letters_and_so_is_cut);
    return a > b ? c[0] : - - -a;
}
