#include "greet.h"

const char *name(void)
{
	return CONFIG_NAME;
}
