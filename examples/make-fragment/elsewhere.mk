# The same, with all that is made below build/. What is made is named from the root, and so is what a text is made of.
CFLAGS := -std=gnu11 -Wall -Wextra -Werror -O1 -g
out := $(CURDIR)/build

all: $(out)/greet $(out)/motd

confstamp-dir := build
include $(dir $(realpath $(shell command -v confstamp)))../lib/confstamp/make/confstamp.mk

parts := $(addprefix $(out)/,banner.o name.o plain.o repeat.o $(if $(CONFIG_FRENCH),french.o))

$(out)/greet: $(out)/main.o $(out)/libgreet.a
	$(call confstamp-link,$(CC) -o $@ $(confstamp-prerequisites),LINK)

$(out)/libgreet.a: $(parts)
	$(call confstamp-link,rm -f $@ && $(AR) rcD $@ $(parts),AR)

$(out)/%.o: %.c
	$(call confstamp-compile,$(CC) $(CFLAGS) -include $(confstamp-header) -c $< -o $@,CC)

$(out)/motd: $(CURDIR)/motd.in
	$(call confstamp-generate,$(CPP) -P -x c -MD -MF $(confstamp-depfile) -include $(confstamp-header) $< -o $@,CPP)

$(call confstamp-watch,$(out)/main.o $(parts) $(out)/libgreet.a $(out)/greet $(out)/motd)
