// A source that asks for bools in the two ways of BusyBox's sources.
int lsmod(void)
{
	if (ENABLE_FEATURE_CHECK_TAINTED_MODULE)
		return 1;
	IF_DESKTOP(return 2;)
	return 3;
}
