#if defined(CONFIG_A) || defined(CONFIG_B)
#define SMALL 1
#endif
