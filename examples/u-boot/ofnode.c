// One source of U-Boot itself and of its SPL, which asks for the symbol of the program that it goes into.
#if CONFIG_IS_ENABLED(OF_LIVE)
int of_live(void) { return 1; }
#endif
int dm(void) { return IS_ENABLED(CONFIG_DM); }
