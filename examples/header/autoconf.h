/*
 * Automatically generated file; DO NOT EDIT.
 * Header
 */
#define CONFIG_A 1
#define CONFIG_B_MODULE 1
#define CONFIG_B_BUILTIN 1
#define CONFIG_H 0x1f
#define CONFIG_H_BARE 0x1f
#define CONFIG_H_UPPER 0X1F
#define CONFIG_I 1000
#define CONFIG_I_NEGATIVE -12
#define CONFIG_I_ZERO 0
#define CONFIG_MODULE 1
#define CONFIG_S "a\"b\\c"
#define CONFIG_S_EMPTY ""
#define CONFIG_S_N "n"
#define CONFIG_S_PATH "/sbin/init -- %s, it's #1 /* no comment */"
