#include <stdio.h>
#include "greet.h"

void say(const char *greeting, const char *whom)
{
	printf("%s, %s\n", greeting, whom);
}
