/* Writes the configuration to begin with. It is compiled before there is one, as the kernel's own conf is. */
#include <stdio.h>

int main(void)
{
	static const char *const lines[] = { "LOUD=y", "FRENCH=y", "TIMES=2", "MASK=0x10" };

	for (unsigned long line = 0; line < sizeof(lines) / sizeof(lines[0]); line++)
		printf("%s%s\n", "CONFIG_", lines[line]);
	return 0;
}
