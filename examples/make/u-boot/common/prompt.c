/* A macro by its own name, as in a comment of ns16550.c: CONFIG_IS_ENABLED, CONFIG_VAL. */
const char *prompt(void)
{
	return CONFIG_SYS_PROMPT;
}
