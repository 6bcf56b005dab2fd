#include "greet.h"

void append(struct buffer *to, const char *text)
{
#ifdef CONFIG_DEBUG_SG
	if (to->length >= sizeof(to->bytes))
		to->length = 0;
#endif
	while (*text && to->length < sizeof(to->bytes) - 1)
		to->bytes[to->length++] = *text++;
	to->bytes[to->length] = 0;
}
