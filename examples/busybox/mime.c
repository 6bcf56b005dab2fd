// A source that has a string, and code for where a bool isn't set.
const char *charset(void)
{
	IF_NOT_DESKTOP(return "us-ascii";)
	return CONFIG_MIME_CHARSET;
}
