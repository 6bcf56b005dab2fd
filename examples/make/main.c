#include "greet.h"

int main(void)
{
	for (unsigned long number = 0; number < greetings(); number++) {
		struct buffer line = { .length = 0 };

		if (left_out(number))
			continue;
		for (int time = 0; time < times(); time++) {
			append(&line, greeting(number));
			append(&line, " ");
		}
		append(&line, name());
		capitals(&line);
		output(&line);
	}
	return 0;
}
