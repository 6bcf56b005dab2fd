#include "greet.h"
#include "repeat.h"

int times(void)
{
	return REPEAT;
}
