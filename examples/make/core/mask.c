#include "greet.h"

int left_out(unsigned long number)
{
	return CONFIG_MASK >> number & 1;
}
