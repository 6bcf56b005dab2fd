#include <fmap_config.h>
const int size = FMAP_SIZE;
