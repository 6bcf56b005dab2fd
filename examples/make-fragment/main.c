#include "greet.h"

int main(void)
{
	for (int time = 0; time < repeat(); time++) {
		say(banner(), name());
#ifdef CONFIG_FRENCH
		say(french(), name());
#endif
	}
	return 0;
}
