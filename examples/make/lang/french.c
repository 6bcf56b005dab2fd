#include "greet.h"

/* Built in, left out, or an object of its own: only the Makefile asks for the option. */
const char *french(void)
{
	return word(1);
}
