#include "greet.h"

const char *word(unsigned long number)
{
	static const char *const words[] = { "hello", "salut" };

	return words[number];
}
