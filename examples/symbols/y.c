#include "a.h"
#ifdef CONFIG_AB
int y;
#endif
