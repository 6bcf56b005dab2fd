/* What the sources share. */
#ifndef GREET_H
#define GREET_H

struct buffer {
	char bytes[256];
	unsigned long length;
};

void append(struct buffer *to, const char *text);
void capitals(struct buffer *of);
void output(const struct buffer *what);

const char *name(void);
int times(void);
unsigned long greetings(void);
int left_out(unsigned long number);

const char *word(unsigned long number);
const char *english(void);
const char *french(void);
const char *greeting(unsigned long number);

#endif
