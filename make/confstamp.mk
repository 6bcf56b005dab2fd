# SPDX-License-Identifier: Apache-2.0 OR MIT
# confstamp.mk: has a makefile rebuild only what mentions a changed symbol. For a build whose sources all include one header of all
# symbols, and that has no fixdep. docs/make.md says how it is used; examples/make-fragment is a makefile that does.
#
# Before the line that includes it the makefile may set
#
#     confstamp-kconfig     the bare Kconfig (Kconfig)
#     confstamp-config      the configuration (.config)
#     confstamp-dir         the directory whose include/ holds the numbers (.). Where it isn't the one in which make runs, what a
#                           command makes is named from the root, and so is what the one of confstamp-generate reads
#     confstamp-header      the header, where the project's own tool writes it (include/generated/autoconf.h of that directory)
#     confstamp-maker       the target whose recipe writes these files, where the project's own tool has a part in it
#     confstamp-inputs      what it makes them from: a change of their text is seen, whatever their time
#     confstamp-dialect     the project whose patterns the sources use, if they use more than CONFIG_X: u-boot, busybox or coreboot.
#                           When it changes, all has to be made from nothing
#     confstamp-silent      empty where labels are printed even with -s, as in a makefile that puts -s into MAKEFLAGS itself
#
# Behind it there are
#
#     $(call confstamp-compile,COMMAND,LABEL)     for a recipe: COMMAND compiles $@, by -c and -o. It has no options -M
#     $(call confstamp-generate,COMMAND,LABEL)    the same of a text that a compiler makes, and which may name symbols. COMMAND
#                                                 has -MD -MF $(confstamp-depfile)
#     $(call confstamp-link,COMMAND,LABEL)        COMMAND makes $@ of files that name no symbol, as a link does
#     $(call confstamp-watch,TARGETS)             a line of the makefile: all targets whose recipes are one of these calls
#     $(confstamp-prerequisites)                  $^ of a target that is watched: of each there is one prerequisite more
#     $(confstamp-comma)                          a comma of COMMAND, since make splits the arguments of a call at commas
#     $(confstamp-depfile)                        the list of what $@ was made from, as the compiler writes it
#     CONFIG_X                                    each symbol, from auto.conf
#
# A command runs where a prerequisite is newer, where it isn't the one that made the target, or where the numbers say that the
# target is stale; no time is asked for the two last ones. What a command begun last has made is only taken for made once it is
# recorded, so a kill or a failure in between costs one more run.
#
# CONFSTAMP is the program, V=1 has commands printed and not labels. Tried with GNU make 4.3 and 4.4.1.

confstamp-first-goal := $(.DEFAULT_GOAL)
confstamp-kconfig ?= Kconfig
confstamp-config ?= .config
confstamp-dir ?= .
confstamp-elsewhere := $(filter-out .,$(confstamp-dir))
confstamp-below := $(if $(confstamp-elsewhere),$(abspath $(confstamp-dir))/)
confstamp-path = $(if $(confstamp-elsewhere),$(abspath $(1)),$(1))
confstamp-own-header := $(confstamp-header)
confstamp-header ?= $(confstamp-below)include/generated/autoconf.h
confstamp-state := $(confstamp-below)include/config
confstamp-program = $(or $(CONFSTAMP),confstamp)
confstamp-words = $(addprefix --dialect ,$(confstamp-dialect))
confstamp-quote := '
confstamp-hash := \#
confstamp-comma := ,

# What was synchronised: the files that the synchronisation goes by and those that it wrote, one after the other. As make
# begins these texts are compared. Times can't be used: a .config that was copied back may have an old one.
confstamp-sources := $(sort $(confstamp-kconfig) $(confstamp-config) $(confstamp-inputs))
confstamp-kept := $(confstamp-state)/confstamp.kept
confstamp-texts = $(confstamp-sources) $(confstamp-state)/auto.conf $(confstamp-header)
confstamp-pending := $(if $(shell cat $(confstamp-texts) 2> /dev/null | cmp -s - $(confstamp-kept) && echo same),,confstamp-always)
ifneq ($(confstamp-pending),)
ifneq ($(filter-out 1 2 3 4 5,$(MAKE_RESTARTS)),)
$(error confstamp has synchronised again and again, and $(confstamp-config) still isn't what was synchronised)
endif
endif

# The synchronisation, in a makefile that is included: make makes that anew before all else, and then begins again, with the
# symbols of auto.conf, and asks which objects are stale. The text of the sources is taken before, so a change meanwhile is
# seen. What was synchronised is kept last, so a synchronisation that was interrupted is done again. A tool that writes the same text once
# more is no reason, else make would begin again for ever. Makes of other directories may do the same at once, so names have a number. So
# has the generation, since it begins with 1 again where all numbers are removed. What a killed make left is removed a day later. The
# recipe is behind a `;`, whatever .RECIPEPREFIX is.
include $(confstamp-state)/confstamp.mk
ifdef confstamp-maker
$(confstamp-maker): $(confstamp-pending)
$(confstamp-kconfig) $(confstamp-config): $(confstamp-maker) ;
endif
$(confstamp-state)/confstamp.mk: $(confstamp-sources) $(confstamp-pending) ; @ \
	$(if $(confstamp-pending),false,cat $(confstamp-texts) | cmp -s - $(confstamp-kept) && [ -e $@ ]) || { \
	$(if $(confstamp-silent),:,echo '  SYNC    $(confstamp-config)'); mkdir -p $(@D) && \
	{ find $(@D) -name 'confstamp.*.*' -mtime +0 -exec rm -f {} + || :; } && \
	trap 'rm -f $(confstamp-kept).$$$$' EXIT INT TERM && cat $(confstamp-sources) > $(confstamp-kept).$$$$ && \
	$(confstamp-program) $(confstamp-words) -C $(confstamp-dir) --wait 60 sync \
	$(call confstamp-path,$(confstamp-kconfig) $(confstamp-config)) > /dev/null && \
	cat $(@D)/auto.conf $(confstamp-header) >> $(confstamp-kept).$$$$ && \
	sed -n -e '/^CONFIG_/{s/\\$$/&$$()/;p;}' -e 's/^#generation /confstamp-generation := '$$$$-/p $(@D)/auto.conf > $@.$$$$ && \
	mv $@.$$$$ $@ && mv $(confstamp-kept).$$$$ $(confstamp-kept); }

.PHONY: confstamp-always
confstamp-always:

# What is known of a target stands in .TARGET.mk beside it: what it depends on, whether confstamp has a record of it or else the
# generation at which it was made, and at last the command.
confstamp-mk = $(dir $(1)).$(notdir $(1)).mk
confstamp-cmd = $(dir $@).$(notdir $@).cmd
confstamp-depfile = $(if $(confstamp-elsewhere),$(abspath $(@D)),$(@D))/.$(@F).d
confstamp-prerequisites = $(filter-out confstamp-always,$^)
confstamp-same = $(and $(findstring <$(1)>,<$(2)>),$(findstring <$(2)>,<$(1)>))
confstamp-silent := $(if $(filter undefined,$(origin confstamp-silent)),$(findstring s,$(firstword -$(MAKEFLAGS))),$(confstamp-silent))
confstamp-text = $(subst $(confstamp-quote),'\$(confstamp-quote)',$(1))
confstamp-built = $(subst $(confstamp-hash),$$(confstamp-hash),$(subst $$,$$$$,$(call confstamp-text,$(1))))

# Of several goals one may write the configuration, as in `make defconfig all`: so it is compared once more before the first command. Where
# one has removed all numbers, as in `make clean all`, nothing is recorded.
confstamp-written = $(if $(word 2,$(MAKECMDGOALS)),$(if $(filter undefined,$(origin confstamp-compared)),$(eval confstamp-compared := \
	$(if $(shell [ ! -e $(confstamp-kept) ] && echo none || cat $(confstamp-texts) 2> /dev/null | cmp -s - $(confstamp-kept) && \
	echo same),,other)))$(confstamp-compared))

# With -n, -q and -t make takes each prerequisite that has a recipe for a new one, so those with nothing to do are looked at.
confstamp-dry := $(strip $(foreach flag,n q t,$(findstring $(flag),$(firstword -$(MAKEFLAGS)))))
confstamp-left = $(if $(confstamp-dry),$(eval confstamp-settled += $@))
confstamp-newer = $(filter-out confstamp-always $(confstamp-settled),$?) $(if $(filter $(confstamp-settled),$?), \
	$(shell find $(filter $(confstamp-settled),$?) -prune -newer $@ 2> /dev/null))

# Why COMMAND is to run: nothing, where it isn't.
confstamp-why = $(strip $(if $(confstamp-watched_$@),,$(error $@ is none of the targets of confstamp-watch)) \
	$(if $(confstamp-pending),$(error nothing was read again after the synchronisation)) \
	$(if $(filter confstamp-answered,$(confstamp-stale)),,$(error $(confstamp-program) doesn't say which targets are stale: is it in PATH?)) \
	$(if $(confstamp-written),$(error another goal of this make has written the configuration: run make again)) \
	$(confstamp-newer) $(if $(wildcard $@),,absent) $(filter $@,$(confstamp-stale)) \
	$(filter-out $(confstamp-generation),$(confstamp-at_$@)) \
	$(if $(call confstamp-same,$(1),$(confstamp-built_$@)),,other))

# confstamp-run COMMAND LABEL WORDS KNOWN: the recipe. .TARGET.mk is emptied first, and has the command only at the end. COMMAND stands
# in no list of && or ||, since a shell ignores `set -e` there. Half a line, as a full disk or two makes at once leave it, would stop each
# later make, so the file gets its name when it is whole.
confstamp-run = @$(call confstamp-report,$(1),$(2)); $(if $(wildcard $(@D)),,mkdir -p $(@D) &&) : > $(call confstamp-mk,$@) || exit; \
	( $(3) ); set -- $$? $(call confstamp-mk,$@); [ $$1 = 0 ] || exit $$1; \
	known=$$($(4) printf '%s\n' 'confstamp-built_$@ := $$()$(call confstamp-built,$(1))') && printf '%s\n' "$$known" > $$2.$$$$ && \
	mv $$2.$$$$ $$2 || { rm -f $$2.$$$$; false; }
confstamp-report = $(if $(confstamp-silent),:,$(if $(and $(2),$(if $(filter 1,$(V)),,yes)),printf '  %-7s %s\n' '$(2)' \
	'$(patsubst $(CURDIR)/%,%,$@)',printf '%s\n' '$(confstamp-text)'))

# The stamps are left out of what make looks at, since the numbers are asked. A file that is gone counts as new. What the
# launcher has no record of (docs/ninja.md says when) is made again at each other generation. The source comes first. Where it is gone
# the makefile says what there is instead. For an assembler's source gcc writes no list. A record with another number than this make's
# is none, since the compiler may have read the header before another make synchronised.
confstamp-known = sed -e '/^$$/q' -e '/^  \(\/.*\/\)*include\/config\/[A-Za-z0-9_]*\( \\\)*$$/d' -e '1s/^[^:]*:/confstamp-files :=/' \
	$(confstamp-depfile) && printf '\n%s\n' '$@: $$(confstamp-source) $$(confstamp-headers)' '$$(confstamp-headers):' \
	'confstamp-files :=' && \
	if grep -qsx '$(confstamp-hash)generation $(lastword $(subst -, ,$(confstamp-generation)))' $(confstamp-cmd); \
	then echo 'confstamp-recorded += $@'; else echo 'confstamp-at_$@ := $(confstamp-generation)'; fi &&
confstamp-source = $(wildcard $(firstword $(confstamp-files)))
confstamp-headers = $(wordlist 2,$(words $(confstamp-files)),$(confstamp-files))
confstamp-options = $(if $(confstamp-own-header),--header $(confstamp-own-header))
confstamp-cc = confstamp-cc $(if $(confstamp-elsewhere),-C $(confstamp-dir)) $(confstamp-words) $(confstamp-options) \
	$(1) -MD -MF $(confstamp-depfile) && : >> $(confstamp-depfile)
confstamp-record = $(1) && { $(confstamp-program) $(confstamp-words) -C $(confstamp-dir) depfile $(confstamp-options) \
	--strict '$(call confstamp-text,$(abspath $(confstamp-header)))' -- $(confstamp-depfile) $@ '$(confstamp-text)' > /dev/null || \
	rm -f $(confstamp-cmd); }

confstamp-compile = $(if $(confstamp-why),$(call confstamp-run,$(1),$(2),$(confstamp-cc),$(confstamp-known)),$(confstamp-left))
confstamp-generate = $(if $(confstamp-why),$(call confstamp-run,$(1),$(2),$(confstamp-record),$(confstamp-known)),$(confstamp-left))
confstamp-link = $(if $(or $(confstamp-why),$(filter $@,$(confstamp-future))),$(call confstamp-run,$(1),$(2),$(1),),$(confstamp-left))

# What is known is read, and confstamp is asked of the recorded targets, though of none of the tree that this one is a copy of: each
# that is stale is named, and removed, so that it is made by whatever tool. One that it doesn't answer for counts as stale, unless it
# answers for none: then nothing is made. Before that each with a future mtime gets the present one, so that what is made of it now
# is newer. A make that was called by another one, of the same directory, removes nothing, since the other one may be compiling; nor
# do make -n, -q and -t. make itself takes the ./ from a name.
confstamp-watch = $(if $(strip $(1)),$(call confstamp-take,$(patsubst ./%,%,$(1))))
confstamp-take = $(eval $(1): confstamp-always)$(eval confstamp-all += $(1)) \
	$(foreach target,$(1),$(eval confstamp-watched_$(target) := yes)) \
	$(call confstamp-read,$(wildcard $(foreach target,$(1),$(call confstamp-mk,$(target))))) \
	$(if $(confstamp-pending),,$(confstamp-ask)$(call confstamp-look,$(wildcard $(filter-out $(confstamp-recorded),$(1)))))
confstamp-read = $(if $(1),$(eval -include $(1))$(eval $(1): ;))
define confstamp-line-feed


endef
confstamp-space := $(subst ,, )
# Makes of several directories may ask at once, so each has its own list; that of the last one stays.
confstamp-last := $(confstamp-state)/confstamp.list
confstamp-list := $(confstamp-last).$(shell echo $$PPID)
confstamp-now := $(confstamp-state)/confstamp.now
confstamp-gone := $(confstamp-list).gone
confstamp-first := $(if $(filter $(abspath $(confstamp-dir)),$(CONFSTAMP_ASKED))$(confstamp-dry),,yes)
export CONFSTAMP_ASKED := $(abspath $(confstamp-dir))
confstamp-asked = $(filter $(confstamp-all),$(confstamp-recorded))
confstamp-ask = $(file > $(confstamp-list),$(subst $(confstamp-space),$(confstamp-line-feed),$(confstamp-asked))) \
	$(eval confstamp-stale := $(shell set +e; trap 'mv $(confstamp-list) $(confstamp-last) 2> /dev/null; rm -f $(confstamp-gone)' EXIT INT TERM; \
	touch $(confstamp-now); $(if $(confstamp-first),$(confstamp-to-now);) \
	$(confstamp-program) -C $(confstamp-dir) --wait 60 stale --from $(call confstamp-path,$(confstamp-list)) | \
	awk ' \
		asked { if ($$1 != "") { unanswered[$$1]; failed = 1 } next } \
		{ failed = 0 } \
		$$2 == "fresh" { delete unanswered[$$1] } \
		END { if (!failed) { print "confstamp-answered"; for (target in unanswered) print target } } \
	' asked=yes $(confstamp-list) asked= - | \
	$(if $(confstamp-first),tee $(confstamp-gone); tr '\n' '\0' < $(confstamp-gone) | xargs -0r rm -f,cat)))
confstamp-to-now = tr '\n' '\0' < $(confstamp-list) | xargs -0r sh -c \
	'find "$$@" -prune -newer $(confstamp-now) -exec touch -r $(confstamp-now) {} + 2> /dev/null' -

# A link with a future mtime is made again, since nobody knows what it is older than.
confstamp-look = $(if $(1),$(eval confstamp-future += $(shell find $(1) -prune -newer $(confstamp-now))))

.DEFAULT_GOAL := $(confstamp-first-goal)
