#include "greet.h"

#if defined(CONFIG_FRENCH) || defined(CONFIG_FRENCH_MODULE)
#define LANGUAGES 2
#else
#define LANGUAGES 1
#endif

unsigned long greetings(void)
{
	return LANGUAGES;
}
