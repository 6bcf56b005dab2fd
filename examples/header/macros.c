// What C has to see in the header of this directory's Kconfig and .config: each macro by its spelling and by its value,
// and no macro for a symbol that is off, without a value, or a module asked for as built in.

#include <generated/autoconf.h>

#define SPELLED(macro) SPELLED_AS_IT_STANDS(macro)
#define SPELLED_AS_IT_STANDS(text) #text
#define SAME(left, right) (sizeof(left) == sizeof(right) && __builtin_memcmp(left, right, sizeof(right)) == 0)

#define SPELLS(macro, text) _Static_assert(SAME(SPELLED(macro), text), #macro " is spelled otherwise")
#define IS_NUMBER(macro, number) _Static_assert((macro) == (number), #macro " is another number")
#define IS_STRING(macro, text) _Static_assert(SAME(macro, text), #macro " is another string")

SPELLS(CONFIG_A, "1");
IS_NUMBER(CONFIG_A, 1);
SPELLS(CONFIG_MODULE, "1");

SPELLS(CONFIG_B_BUILTIN, "1");
SPELLS(CONFIG_B_MODULE, "1");

SPELLS(CONFIG_I, "1000");
IS_NUMBER(CONFIG_I, 1000);
SPELLS(CONFIG_I_NEGATIVE, "-12");
IS_NUMBER(CONFIG_I_NEGATIVE, -12);
SPELLS(CONFIG_I_ZERO, "0");

SPELLS(CONFIG_H, "0x1f");
IS_NUMBER(CONFIG_H, 31);
SPELLS(CONFIG_H_BARE, "0x1f");
IS_NUMBER(CONFIG_H_BARE, 31);
SPELLS(CONFIG_H_UPPER, "0X1F");
IS_NUMBER(CONFIG_H_UPPER, 31);

SPELLS(CONFIG_S, "\"a\\\"b\\\\c\"");
IS_STRING(CONFIG_S, "a\"b\\c");
IS_STRING(CONFIG_S_EMPTY, "");
IS_STRING(CONFIG_S_N, "n");
IS_STRING(CONFIG_S_PATH, "/sbin/init -- %s, it's #1 /* no comment */");

#if defined CONFIG_A_OFF || defined CONFIG_A_OFF_MODULE || defined CONFIG_A_MODULE
#error "a bool that is off, or one that is y, is defined as a module"
#endif
#if defined CONFIG_B || defined CONFIG_B_BUILTIN_MODULE
#error "a module is defined as built in, or the other way round"
#endif
#if defined CONFIG_B_OFF || defined CONFIG_B_OFF_MODULE
#error "a tristate that is off is defined"
#endif
#ifdef CONFIG_S_UNSET
#error "a string without a value is defined"
#endif
