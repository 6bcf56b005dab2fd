int lsmod(void)
{
	return ENABLE_FEATURE_CHECK_TAINTED_MODULE;
}
