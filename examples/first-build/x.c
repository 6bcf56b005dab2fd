#include "a.h"
#include "b.h"

#ifdef CONFIG_A
int answer(void) { return LARGE; }
#endif
#ifdef CONFIG_B_MODULE
int small(void) { return SMALL; }
#endif
