/* How often, for who asks by this name and not by the symbol's. */
#define REPEAT CONFIG_TIMES
