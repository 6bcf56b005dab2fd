#include "a.h"

#ifdef CONFIG_A
int answer(void) { return SMALL; }
#endif
