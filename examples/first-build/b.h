#ifdef CONFIG_A
#define LARGE 42
#endif
