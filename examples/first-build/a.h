#if defined(CONFIG_B) || defined(CONFIG_B_MODULE) || defined(CONFIG_C_MODULE)
#define SMALL 1
#endif
