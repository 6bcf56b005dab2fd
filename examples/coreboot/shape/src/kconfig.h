#include <config.h>
#define PLACEHOLDER_1 0,
#define SECOND(first, second, ...) second
#define CHOSEN(first_or_none) SECOND(first_or_none 1, 0, 0)
#define PLACED(value) CHOSEN(PLACEHOLDER_##value)
#define ENABLED(value) PLACED(value)
#define CONFIG(option) ENABLED(CONFIG_##option)
