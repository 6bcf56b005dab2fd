int history(void)
{
	return CONFIG_FEATURE_EDITING_HISTORY;
}
