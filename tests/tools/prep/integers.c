#include <stdio.h>
#include <sys/types.h>
#include <sys/mman.h>
#include <unistd.h>
#include <fcntl.h>
struct point { double x; long double y; float z; };
static double half(double v) { return v / 2.0; }
static ssize_t modes(int n) { return n + SEEK_END + (S_IRUSR | S_IWUSR) + PROT_WRITE; }
int main(void)
{
    struct point p = {1.5, 1e3, .5f};
    double big = 1e30;
    printf("%5.2f|%g|%Lf|%.1e\n", p.x, half(9.0), p.y, (double)p.z);
    printf("%d %d\n", big == 2147483647, (int)modes(1));
    return 0;
}
