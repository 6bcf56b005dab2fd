#include "greet.h"

const char *greeting(unsigned long number)
{
#ifdef CONFIG_FRENCH
	if (number)
		return french();
#endif
	return number ? "(a module greets)" : english();
}
