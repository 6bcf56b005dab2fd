#include "autoconf.h"
#include <stdio.h>

int main(void)
{
	puts(ENABLE_DESKTOP ? "more" : "less");
	return 0;
}
