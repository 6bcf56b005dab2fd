#include "greet.h"

const char *english(void)
{
	return word(0);
}
