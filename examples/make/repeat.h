/* How often each greeting stands: CONFIG_TIMES, at least once. */
#define REPEAT (CONFIG_TIMES > 0 ? CONFIG_TIMES : 1)
