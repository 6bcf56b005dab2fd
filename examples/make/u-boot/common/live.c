int live(void)
{
	return CONFIG_IS_ENABLED(OF_LIVE);
}
