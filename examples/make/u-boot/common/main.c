#include <stdio.h>

int live(void);
int delay(void);
const char *prompt(void);

int main(void)
{
	printf("%d %d %s\n", live(), delay(), prompt());
	return 0;
}
