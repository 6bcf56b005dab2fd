/* What the parts of the program have for each other. */
const char *banner(void);
const char *french(void);
const char *name(void);
int repeat(void);
void say(const char *greeting, const char *whom);
