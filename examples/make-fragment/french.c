#include "greet.h"

const char *french(void)
{
	return "Bonjour";
}
