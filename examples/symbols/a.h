#if IS_ENABLED(CONFIG_B)
extern int b;
#endif
