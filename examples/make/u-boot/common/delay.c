int delay(void)
{
	return CONFIG_BOOTDELAY * 100 + CONFIG_TEXT_BASE;
}
