const char *say(void);
int stage_main(void)
{
	int said = 0;
#if CONFIG(LOUD) && CONFIG_TIMES > 1
	for (int time = 0; time < CONFIG_TIMES; time++)
#endif
		said += say()[0];
	return said;
}
