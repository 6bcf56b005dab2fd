const char *say(void)
{
	return CONFIG(LOUD) ? "HELLO" : "hello";
}
