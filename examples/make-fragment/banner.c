#include "greet.h"

const char *banner(void)
{
#ifdef CONFIG_LOUD
	return "HELLO";
#else
	return "Hello";
#endif
}
