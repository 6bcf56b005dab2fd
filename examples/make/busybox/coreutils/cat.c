#include <stdio.h>

int history(void);
int lsmod(void);
const char *mime(void);

int main(void)
{
	IF_DESKTOP(puts("desktop");)
	IF_NOT_DESKTOP(puts("none");)
	printf("%d %d %s\n", history(), lsmod(), mime());
	return 0;
}
