#include "greet.h"

const char *name(void)
{
#ifdef CONFIG_NAME
	return CONFIG_NAME;
#else
	return "World";
#endif
}
