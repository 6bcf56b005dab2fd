#include "greet.h"

void capitals(struct buffer *of)
{
#ifdef CONFIG_LOUD
	for (unsigned long place = 0; place < of->length; place++)
		if (of->bytes[place] >= 'a' && of->bytes[place] <= 'z')
			of->bytes[place] -= 'a' - 'A';
#else
	(void)of;
#endif
}
