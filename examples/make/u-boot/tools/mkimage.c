#include <stdio.h>

int main(void)
{
	puts(CONFIG_IS_ENABLED(OF_LIVE) ? "live" : "flat");
	return 0;
}
