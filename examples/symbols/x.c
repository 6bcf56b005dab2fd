#include "a.h"
#ifdef CONFIG_A
int x;
#endif
