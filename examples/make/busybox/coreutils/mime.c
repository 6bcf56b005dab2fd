const char *mime(void)
{
	return CONFIG_FEATURE_MIME_CHARSET;
}
