# SPDX-License-Identifier: Apache-2.0 OR MIT
# The part of confstamp's hooks that make reads. The lines that kbuild/install-hooks puts into a tree include it, and put each of these names
# in one place of the tree's own makefiles. Where this file isn't found the names are empty, and the kernel's own tools do the work.

# The program that was installed with the hooks, or the one in PATH.
ifndef CONFSTAMP
CONFSTAMP := $(firstword $(wildcard $(abspath $(CONFSTAMP_KBUILD)/../../../bin/confstamp)) confstamp)
endif
export CONFSTAMP

# Up to Linux 6.2 make looks for the command of an object under cmd_T in its command file, and not under savedcmd_T.
confstamp-prefix = $(if $(findstring savedcmd_,$(value cmd-check)),,cmd_)

# From Linux 6.13 on make runs in the directory of an external module, and the tree is elsewhere. Then an object is recorded by its
# whole path, from the tree.
confstamp-elsewhere = $(filter-out . $(CURDIR),$(objtree))
confstamp-tree = $(if $(confstamp-elsewhere),$(confstamp-elsewhere)/)
confstamp-named = $(if $(confstamp-elsewhere),$(abspath $(1)),$(1))
confstamp-from = $(if $(confstamp-elsewhere),$(if $(filter /%,$@),,$(CURDIR)/))

# With CONFSTAMP_VERIFY each record is compared with the project's own fixdep, and each synchronisation with its own conf. In a tree whose
# version was not tried, so it is until a make of all has ended well.
confstamp-verified = $(confstamp-tree)include/config/confstamp.verified-all
ifeq ($(CONFSTAMP_VERIFY):$(confstamp-untried)$(wildcard $(confstamp-verified)),:yes)
export CONFSTAMP_VERIFY := first
endif
confstamp-verifies = $(filter-out 0 no,$(CONFSTAMP_VERIFY))

# In front of the kernel's own fixdep stands a function of the shell, so its arguments are those of fixdep, which runs only where what stands
# before it has failed. The program comes first, since a shell for each object costs more than the record; it removes the dependency file
# itself, and the recipe ends there. With cmd_T autoksyms.h has to be left out of the dependency file, where it is in use; the hook does that.
# Where the hook says that fixdep has found another name, with status 3, the recipe ends.
confstamp-record = $(confstamp-begin)confstamp_fixdep() { $(confstamp-in-time) || return 0; \
	$(if $(confstamp-by-hook),,$(confstamp-directly) ||) $(confstamp-hook) \
	"$$2" "$$3" "$$4" $(confstamp-prefix) && $(confstamp-theirs) || \
	$(if $(confstamp-verifies),{ [ $$? != 3 ] || exit 1; false; } ||) "$$@"; }; \
	confstamp_fixdep
confstamp-by-hook = $(confstamp-verifies)$(and $(confstamp-prefix),$(CONFIG_TRIM_UNUSED_KSYMS))
confstamp-hook = $(CONFSTAMP_KBUILD)/fixdep $(confstamp-dialect) $(if $(confstamp-in-place),--in-place) \
	$(if $(confstamp-elsewhere),--tree $(objtree)) \
	$(if $(confstamp-verifies),--verify $(or $(objtree),.)/$(or $(confstamp-fixdep),scripts/basic/fixdep))
confstamp-directly = { $(CONFSTAMP) $(if $(confstamp-elsewhere),-C $(objtree)) $(confstamp-dialect) record $(if \
	$(confstamp-dialect),--cmd,--remove-depfile $(if $(confstamp-prefix),--cmd)) $(confstamp-early) $(if \
	$(confstamp-elsewhere),--in $(CURDIR) --tree $(objtree)) -- \
	$(confstamp-from)"$$2" $(confstamp-from)"$$3" "$$4" > /dev/null 2>&1 $(confstamp-and-then); }

# Another make may synchronise while the compiler runs, also one after a make that was killed, whose compiler goes on. The record would
# have the new number, and the object isn't of it. So where the number is another one than as the recipe was made, or is about to change,
# nothing is recorded: the command file stays empty, and the next make compiles the object.
confstamp-in-time = { now=; [ ! -e $(confstamp-number-file) ] || read -r now < $(confstamp-number-file) || :; [ "$$now" = '$(filter-out \
	synchronising,$(strip $(call confstamp-read,$(confstamp-number-file))))' ]; }
confstamp-number-file = $(confstamp-tree)include/config/confstamp.generation

# Where there is no auto.conf yet, as for the first host programs, a record has the number 0.
confstamp-early = $(if $(wildcard $(confstamp-tree)include/config/auto.conf),,--before-sync)

# The makefiles of U-Boot and BusyBox write the command file aside, and move it to its place behind the call of fixdep; those of Xen don't.
confstamp-and-then = $(if $(confstamp-dialect),$(if $(confstamp-in-place),,&& cat $(confstamp-command-file)),&& $(confstamp-theirs) && exit)

# Linux's fixdep writes into the command file, so in a user's tree it is that user's also after a make of root. A record is a new file.
confstamp-theirs = { [ ! -O / ] || [ -O $(@D) ] || chown "$$(stat -c %u:%g $(@D))" $(confstamp-command-file) 2> /dev/null || :; }

# Without auto.conf the conf of Xen and U-Boot touches all symbols. So it becomes an old file where their make would remove it, and their own
# tools synchronise as well; and before each synchronisation: U-Boot's make takes flags and SOC from one that is no older than .config.
confstamp-keeps = touch -c -d @1 include/config/auto.conf; :
confstamp-is-old = $(if $(CONFSTAMP_ASKS),,$(if $(filter u-boot,$(confstamp-dialect)),$(shell $(confstamp-keeps))))

# Before the compiler or linker runs the command file is emptied, so that make makes once more what is made and not recorded, as where it is
# killed in between. make itself writes, as it expands make-cmd, since a process for each target would cost more. BusyBox's make-cmd has a
# `#`, so it is defined as a whole.
confstamp-emptied = $(if $(confstamp-only-asked),,$(if $(wildcard $(confstamp-command-file)),$(call \
	confstamp-empty,$(confstamp-command-file)))$(if $(filter %.ko,$@),$(confstamp-first-line)))
define confstamp-make-cmd
define make-cmd
$$(confstamp-emptied)$(value make-cmd)
endef
endef
$(eval $(confstamp-make-cmd))

# Later lines of a recipe may change what the first one has recorded: genksyms appends to the command file, and pahole rewrites a module. Until
# the last one has run another file stands beside that. Where it was left, as by a make that was killed, the target is made once more.
confstamp-late = $(if $(filter %.ko,$@),$(CONFIG_DEBUG_INFO_BTF_MODULES),$(or $(CONFIG_MODVERSIONS),$(CONFIG_TRIM_UNUSED_KSYMS),\
	$(CONFIG_FTRACE_MCOUNT_USE_RECORDMCOUNT)))
confstamp-begun-file = $(@D)/.$(@F).begun.tmp
confstamp-unfinished = $(if $(confstamp-late),$(wildcard $(confstamp-begun-file)))
confstamp-first-line = $(if $(confstamp-only-asked),,$(if $(confstamp-late),$(call confstamp-empty,$(confstamp-begun-file))))
confstamp-last-line = $(if $(confstamp-late),$(confstamp-line-feed)@rm -f $(confstamp-begun-file))
ifdef if-changed-cond
override if_changed_rule = $(if $(if-changed-cond),$(confstamp-first-line)$(rule_$(1))$(confstamp-last-line),@:)
$(eval cmd = $(value cmd)$$(if $$(filter btf_ko,$$(1)),$$(confstamp-last-line)))
endif

# An object is also listed as one that was recorded in this tree, or, where it stands elsewhere, in the directory of this external module;
# of a module, together with the directory as make was given it. A full disk may have cut off the line before, so an empty one comes first.
confstamp-begin = $(if $(confstamp-only-asked),,$(if $(filter-out $(CONFSTAMP_UNLISTED),$(wildcard $(confstamp-records))),$(call \
	confstamp-write,>> $(confstamp-records),$(confstamp-line-feed)$(strip record $(confstamp-target) $(confstamp-module)))))
confstamp-command-file = $(@D)/.$(@F).cmd
confstamp-module = $(if $(confstamp-elsewhere),$(CURDIR),$(KBUILD_EXTMOD))
confstamp-records = $(if $(confstamp-outside),$(if $(confstamp-elsewhere),.,$(KBUILD_EXTMOD))/.confstamp.records,$(confstamp-of-tree))
confstamp-of-tree = $(confstamp-tree)include/config/confstamp.records
confstamp-outside = $(if $(filter /% ../%,$(confstamp-target)),$(filter-out $(realpath $(or $(objtree),.))/%,$(realpath $(@D))/))
confstamp-target = $(call confstamp-named,$@)

# In front of the command of the kernel's conf, or of BusyBox's.
confstamp-syncconfig = $(if $(filter syncconfig silentoldconfig,$@),$(CONFSTAMP_KBUILD)/syncconfig $(confstamp-dialect) \
	$(if $(confstamp-project),--project $(confstamp-project)) $(if $(findstring s,$(confstamp-options)),--quiet))

# BusyBox's .config has a fixed place. What a synchronisation writes last is its header, and make then splits that into stamps, which empties
# confstamp.h, a header of no symbol: so a synchronisation without the hooks is seen. `make oldconfig` writes the header as well, and so does
# a synchronisation that is killed, after which the old .config may come back: so the header's text counts too. mrproper removes confstamp's.
confstamp-config = $(KCONFIG_CONFIG)
confstamp-last-file = include/config/auto.conf
ifeq ($(confstamp-dialect),--dialect busybox)
confstamp-config = .config
confstamp-last-file = include/autoconf.h
confstamp-ours = include/config/confstamp.h
confstamp-header = include/config/confstamp.header
override cmd_split_autoconf = scripts/basic/split-include include/autoconf.h include/config && \
	echo '/* Split by the hooks of confstamp */' > $(confstamp-ours)
MRPROPER_DIRS += include/generated
endif

# Has auto.conf another generation than the hook's last one, or none, or is .config not the text that was synchronised then, whatever its time?
# Or has Linux's own tool been here, which writes auto.conf.cmd before all else, and without the mark? make reads the files itself where it
# can (from GNU make 4.2 on), since each process would cost more than that.
confstamp-mark := Synchronised by the hooks of confstamp
define confstamp-line-feed


endef
ifeq ($(filter 3.% 4.0% 4.1%,$(MAKE_VERSION)),)
confstamp-read = $(file < $(1))
confstamp-write = $(file $(1),$(2))
confstamp-empty = $(file > $(1))
confstamp-last = $(strip $(file < include/config/confstamp.generation))
confstamp-number = $(and $(confstamp-last),$(findstring $(confstamp-line-feed)$(confstamp-last)$(confstamp-line-feed),$(file \
	< include/config/auto.conf)$(confstamp-line-feed)))
# GNU make 4.3 drops the line feed at the end of a file that it reads, or keeps it, by where its buffer came to lie. So two texts
# are the same where one is part of the other, and no more than blanks are around it.
confstamp-equal = $(and $(findstring $(1),$(2)),$(findstring $(2),$(1)))
confstamp-same = $(and $(or $(findstring $(1),$(2)),$(findstring $(2),$(1))),$(call confstamp-equal,$(strip $(1)),$(strip $(2))))
confstamp-split = $(if $(confstamp-ours),$(and $(file < $(confstamp-ours)),$(call confstamp-same,$(file \
	< $(confstamp-last-file)),$(file < $(confstamp-header)))),yes)
confstamp-alone = $(if $(confstamp-dialect),yes,$(findstring $(confstamp-mark),$(file < include/config/auto.conf.cmd)))
confstamp-synchronised = $(and $(confstamp-number),$(confstamp-split),$(confstamp-alone),$(call confstamp-same,$(file \
	< $(confstamp-config)),$(file < include/config/confstamp.config)))
else
confstamp-read = $(shell cat $(1) 2> /dev/null)
confstamp-write = $(shell echo '$(2)' $(1))
confstamp-empty = $(shell : > $(1))
confstamp-synchronised = $(shell grep -qsxFf include/config/confstamp.generation include/config/auto.conf && \
	cmp -s $(confstamp-config) include/config/confstamp.config $(if $(confstamp-ours),&& [ -s $(confstamp-ours) ] && \
	cmp -s $(confstamp-last-file) $(confstamp-header)) \
	$(if $(confstamp-dialect),,&& grep -qsF '$(confstamp-mark)' include/config/auto.conf.cmd) && echo yes)
endif

# Where auto.conf had to get a future mtime, as a Kconfig file has one, this is a list of these files with their mtimes and sizes: a change
# doesn't show by its mtime. A make without confstamp in PATH removes the list of records, and what it compiled has no number.
confstamp-kconfigs = include/config/confstamp.kconfigs
confstamp-changed = $(if $(wildcard include/config/confstamp.records),$(if $(wildcard $(confstamp-kconfigs)),$(shell sed 's/ .*//' \
	$(confstamp-kconfigs) | tr '\n' '\0' | xargs -0 stat -Lc '%n %y %z %s' 2>&1 | cmp -s - $(confstamp-kconfigs) || echo changed)),yes)

# Where a recipe fails make removes its targets, and with auto.conf the generation would be lost. A synchronisation of a build counts no
# objects, since make is about to compile them. After each make begins again; where all is never synchronised it doesn't go on for ever.
define confstamp-rules
$(confstamp-take-over)
.PRECIOUS: $(addprefix include/,config/auto.conf config/auto.conf.cmd generated/autoconf.h generated/rustc_cfg)
export CONFSTAMP_BUILDS := yes
$(if $(if $(confstamp-changed),,$(confstamp-synchronised)),,$(if $(filter-out 1 2 3,$(MAKE_RESTARTS)),$(confstamp-never))$(confstamp-is-old)$(confstamp-last-file): FORCE)
$(confstamp-marks)
endef

# BusyBox has no Kbuild at its top, so scripts/Makefile.build reads the whole Makefile for that directory. This is no make of its own.
ifneq ($(filter %Makefile.build,$(MAKEFILE_LIST)),)
confstamp-rules :=
endif
# U-Boot's make writes include/autoconf.mk after a synchronisation. Where it is killed before, it never begins again.
confstamp-take-over = $(if $(and $(MAKE_RESTARTS),$(wildcard include/config/confstamp.pending)),$(shell mv -f \
	include/config/confstamp.pending include/config/confstamp.config))
confstamp-never = $(error confstamp has synchronised $(MAKE_RESTARTS) times, and $(confstamp-config) still isn't what was synchronised)

# kbuild/restore needs to know whether the last make of all ended well. When one begins, this file gets the word `begun`, and at its end `ended`,
# unless make ignores errors. A make of some goals turns `ended` into `part`, but for .kernelrelease, a part of BusyBox's `make oldconfig`. The
# recipe is empty, so no process is started. This directory stands after the word. Where that is another one the tree may be a copy by hard
# links, and what is written into here must not be a file of the other tree.
confstamp-make-mark = include/config/confstamp.make
confstamp-whole ?= $(if $(confstamp-dialect),_all,all)
confstamp-options = $(firstword -$(MAKEFLAGS))
confstamp-only-asked = $(CONFSTAMP_ASKS)$(findstring n,$(confstamp-options))$(findstring q,$(confstamp-options))
confstamp-marked = $(if $(KBUILD_EXTMOD)$(confstamp-only-asked),,$(wildcard include/config/auto.conf))
confstamp-goals = $(or $(MAKECMDGOALS),all)
confstamp-goals-of-all = all _all __all $(confstamp-whole:_%=%)
confstamp-begun = $(if $(filter $(confstamp-goals-of-all),$(confstamp-goals)),begun,$(if $(filter begun \
	part,$(confstamp-left-mark))$(filter .kernelrelease,$(confstamp-goals)),,part))
confstamp-left = $(call confstamp-read,$(confstamp-make-mark))
confstamp-left-mark = $(or $(firstword $(confstamp-left)),$(if $(wildcard $(confstamp-make-mark)),begun))
confstamp-ended = $(if $(confstamp-marked),$(if $(findstring i,$(confstamp-options)),,$(call confstamp-leave,ended)$(if \
	$(confstamp-verifies),$(call confstamp-write,> $(confstamp-verified),ended))))
confstamp-leave = $(call confstamp-write,> $(confstamp-make-mark),$(1) $(CURDIR))
confstamp-its-own = $(if $(filter-out $(CURDIR),$(word 2,$(confstamp-left))),$(shell find . -name .git -prune -o \
	\( -name '.*.cmd' -o -path './include/config/confstamp.[!t]*' \) -type f -links +1 -exec sed -i '' {} +)$(call \
	confstamp-leave,$(confstamp-left-mark)))
define confstamp-marks
$(if $(confstamp-marked),$(confstamp-its-own)$(if $(confstamp-begun),$(call confstamp-leave,$(confstamp-begun))))
$(if $(KBUILD_EXTMOD),,$(confstamp-whole): ; $$(confstamp-ended))
endef

# The tree's numbers may have gone on since an external module's objects were recorded. So these are asked about as make begins. Where the tree
# is another user's, nothing is added to its list for a directory of it.
confstamp-mark-due = $(if $(confstamp-only-asked),,$(if $(filter done,$(shell $(if $(confstamp-elsewhere),cd $(objtree) &&) \
	$(CONFSTAMP_KBUILD)/mark $(confstamp-module) && echo done)),,$(error stale objects could not be marked)))
ifneq ($(KBUILD_EXTMOD),$(CONFSTAMP_MARKED))
export CONFSTAMP_MARKED := $(KBUILD_EXTMOD)
export CONFSTAMP_UNLISTED := $(if $(KBUILD_EXTMOD),$(shell [ -w $(confstamp-of-tree) ] || echo $(confstamp-of-tree)))
$(if $(and $(KBUILD_EXTMOD),$(filter-out clean help modules_install,$(or $(MAKECMDGOALS),modules))),$(confstamp-mark-due))
endif

# In the command file of what is due a stamp replaces the saved command. make takes it for a newer file, so V=2 names it, and KBUILD_NOCMDDEP=1,
# where no command counts, doesn't matter. An object of an external module may have a command under its whole path alone. BusyBox has a word
# for commands alone.
confstamp-stamp-in = $(if $(word 2,$(1)),,$(filter include/config/%,$(1)))
confstamp-due-by = $(call confstamp-stamp-in,$(savedcmd_$@)) $(if $(confstamp-elsewhere),$(call \
	confstamp-stamp-in,$(savedcmd_$(confstamp-target))))
confstamp-pending = $(filter-out $?,$(sort $(confstamp-due-by) $(confstamp-unfinished)))
$(foreach word,newer-prereqs any-prereq arg-check cmd-check,$(eval $(word) = $$(strip $(value $(word)) $$(confstamp-pending))))

# kbuild/stale --make asks what make would do, by make -n. Recipes that begin with `+`, the links of vmlinux and modules, and rustc run even
# then, so no recipe is left. Of each target that make comes to, lines are reported:
#   - confstamp-visited: its name,
#   - confstamp-rebuild: of an object with a list of dependencies that isn't up to date, its command as a word of the shell, and the files
#     that make takes for newer, among them all that it would rewrite;
#   - confstamp-linked: of what is made of other files whether its command differs, and these files. vmlinux is an object of both kinds.
#     U-Boot writes its environment without a saved command, each time. BusyBox links so, and what counts there is these files. A step that
#     make removed behind it is gone, and no reason by itself. dtoc writes its files by one rule;
#   - confstamp-text: a text that would come out otherwise. The commands that print it run, since they show it.
# A line that has $(MAKE) in it runs as well, and in Linux 6.1 one of them writes autoksyms.h and include/ksym/: its shell does nothing.
ifdef CONFSTAMP_ASKS
ifdef confstamp-dialect
confstamp-newer = $(filter-out $(PHONY),$?) $(filter-out $(PHONY) $(wildcard $^),$^)
confstamp-other = $(if $(confstamp-ours),$(call arg-check, $(cmd_$(1)), $(cmd_$@)),$(arg-check)$(cmd-check))
else
confstamp-newer = $(newer-prereqs)
confstamp-other = $(cmd-check)
override define filechk
+@{ $(filechk_$(1)); } 2> /dev/null | cmp -s - $@ || echo 'confstamp-text $(call confstamp-named,$@)'
endef
endif
confstamp-object = $(if $(strip $(confstamp-newer) $(confstamp-other)),$(info confstamp-rebuild $(call confstamp-named,$@) \
	'$(make-cmd)' $(call confstamp-named,$(confstamp-newer))))
confstamp-together = $(platdata-hdr) $(u-boot-spl-platdata_c)
confstamp-linked = $(foreach target,$(if $(filter $(confstamp-together),$@),$(confstamp-together),$@),$(info \
	confstamp-linked $(call confstamp-named,$(target)) $(1) $(call confstamp-named,$(2))))
confstamp-parts = $(if $(filter %.o %.a,$^),$(call confstamp-linked,same,$(filter %.o %.a,$^)))
confstamp-link = $(call confstamp-linked,$(if $(strip $(confstamp-other)),differs,same),$(filter-out $(PHONY) $(2),$^))
confstamp-visited = $(info confstamp-visited $(call confstamp-named,$@))$(if \
	$(deps_$@),$(confstamp-object)$(confstamp-parts),$(confstamp-link))
$(foreach word,if_changed_dep if_changed_rule if_changed if_changed_except,$(eval override $(word) = $$(if $$(filter \
	$$(PHONY),$$@),,$$(confstamp-visited))@:))
override cmd = $(if $(confstamp-dialect),$(if $(filter $(PHONY),$@)$(deps_$@),,$(call confstamp-linked,$(or $(if \
	$(confstamp-ours),,$(if $(filter FORCE,$^),differs)),$(if $(wildcard $@),same,gone)),$(filter-out $(PHONY),$^))))@:
autoksyms_recursive: private SHELL := true
endif
