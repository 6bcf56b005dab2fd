/* U-Boot's macros that ask for a symbol of the program that a source goes into. */
#ifndef KCONFIG_H
#define KCONFIG_H

#include <generated/autoconf.h>

#ifdef USE_HOSTCC
#define PREFIX TOOLS_
#elif defined(CONFIG_SPL_BUILD)
#define PREFIX SPL_
#else
#define PREFIX
#endif

#define PLACEHOLDER_1 0,
#define second(ignored, value, ...) value
#define enabled_or_junk(junk) second(junk 1, 0)
#define enabled_value(value) enabled_or_junk(PLACEHOLDER_##value)
#define enabled(option) enabled_value(option)

#define pasted(prefix, option) CONFIG_##prefix##option
#define paste(prefix, option) pasted(prefix, option)
#define CONFIG_VAL(option) paste(PREFIX, option)
#define CONFIG_IS_ENABLED(option) enabled(CONFIG_VAL(option))
#define IS_ENABLED(option) enabled(option)

#endif
