#include <fmap_config.h>
SECTIONS
{
	. = CONFIG_ROM_SIZE - FMAP_SIZE;
}
