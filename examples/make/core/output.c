#include <stdio.h>
#include "greet.h"
#include "repeat.h"

_Static_assert(REPEAT < 10, "a line has room for nine greetings");

void output(const struct buffer *what)
{
	puts(what->bytes);
}
