#include "greet.h"
#include "repeat.h"

_Static_assert(REPEAT < 10, "nobody greets more than nine times");

int repeat(void)
{
#ifdef CONFIG_DEBUG_REPEAT
	static int asked;

	return asked++ > 9 ? 0 : REPEAT;
#else
	return REPEAT;
#endif
}
