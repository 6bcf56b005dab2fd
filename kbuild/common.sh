# SPDX-License-Identifier: Apache-2.0 OR MIT
# What the hooks share; sourced by them.
# shellcheck shell=sh disable=SC2016,SC2034

set -eu
CDPATH=''
LC_ALL=C
export LC_ALL

# The head of a script is its help, and this holds for all of them.
if [ "${1-}" = --help ]; then
    sed -n '1d; /^# SPDX/d; 2,3{/^#$/d;}; /^#/!q; s/^# \{0,1\}//; p' "$0"
    echo
    echo 'Run it in the directory where make runs. CONFSTAMP is the program, if it is another than the one installed with this hook.'
    exit
fi

here=${0%/*}
[ "${here#/}" != "$here" ] || here=$PWD/$here
auto=include/config/auto.conf
ours=include/config/confstamp
synced_config=$ours.config generation_file=$ours.generation numbers_name=$ours.numbers dialects=$ours.dialect
records=$ours.records module_records=.confstamp.records verified=$ours.verified
make_mark=$ours.make clock_ref=$ours.time kconfigs_ahead=$ours.kconfigs
kept_auto=$ours.auto kept_header=$ours.autoconf split=$ours.h conf_header=$ours.header
mark='# Synchronised by the hooks of confstamp'

# The program: that of CONFSTAMP, or that was installed with the hooks, or that in PATH.
confstamp=${CONFSTAMP:-$here/../../../bin/confstamp}
[ -n "${CONFSTAMP:-}" ] || [ -x "$confstamp" ] || confstamp=confstamp

report() { echo "kbuild/${0##*/}: $*" >&2; }
refuse() { report "$*"; exit 2; }

# use_dialect DIALECT: the project of the tree. BusyBox's tool has fixed paths for .config and for the list of the Kconfig files.
use_dialect() {
    dialect=$1
    config=${KCONFIG_CONFIG:-.config}
    read_kconfigs=$auto.cmd
    [ "$dialect" != busybox ] || { config=.config && read_kconfigs=.kconfig.d; }
}

# A tree of another project than Linux has the dialect here, since its first synchronisation.
dialect=
[ ! -e "$dialects" ] || read -r dialect < "$dialects"
use_dialect "$dialect"

wrong_words() { echo "usage: kbuild/${0##*/} $1" >&2; exit 2; }

# directories_only USAGE WORD..
directories_only() {
    usage=$1
    shift
    for word; do
        [ "${word#-}" = "$word" ] || wrong_words "$usage"
        [ -d "$word" ] || refuse "there is no directory $word"
    done
}

need_program() {
    command -v "$confstamp" > /dev/null || refuse "$confstamp is missing: install it again, or take the hooks out (install-hooks -R)"
}

# $tmpdir goes when the hook ends. A TMPDIR that the program can't name, or that can't be written, is left aside, as the compiler does.
make_work_directory() {
    need_program
    case ${TMPDIR:-} in
    *[!A-Za-z0-9_./+,@%=:~-]*) TMPDIR=/tmp ;;
    *) [ -w "${TMPDIR:-/tmp}" ] || TMPDIR=/tmp ;;
    esac
    tmpdir=$(mktemp -d)
    trap 'rm -rf "$tmpdir"' EXIT
    trap 'exit 2' HUP INT TERM
}

# find_there WORD..: find. What is gone meanwhile, as beside a make, is no failure, nor is a directory that may not be entered, such as
# lost+found: make comes to no file there. All else is reported, and has status 1.
find_there() {
    ended=0
    { complaints=$(find "$@" 2>&1 >&3) || ended=$?; } 3>&1
    [ "$ended" != 0 ] || return 0
    echo "${complaints:-find ended with $ended}" | sed '/^find: .*: No such file or directory$/d' | while IFS= read -r line; do
        path=$(echo "$line" | sed "s/^find: '*//; s/'*: Permission denied\$//")
        [ ! -d "$path" ] || [ -x "$path" ] || continue
        report "not all could be looked through: $line"
        return 1
    done
}

# each COMMAND..: runs it with the words that standard input has, one a line; not at all if there are none.
each() { tr '\n' '\0' | xargs -0 -r "$@"; }

# commands_of TARGET: `commands`, its command file.
commands_of() {
    commands=${1##*/}
    commands=${1%"$commands"}.$commands.cmd
}

# The same for a list, and from the command files to the targets.
to_commands() { sed 's,[^/]*$,.&.cmd,' "$@"; }
to_targets() { sed 's,\.\([^/ ]*\)\.cmd$,\1,' "$@"; }

table=no
wants_table() { { [ "$1" = --by-directory ] || [ "$1" = --by-folder ]; } && table=yes; }

# directories_of TARGETS: the directories of these files, and those above them.
directories_of() { awk 'BEGIN { print "." } { while (sub(/\/[^\/]*$/, "") && $0 != "" && !known[$0]++) print }' "$1"; }

# look_through USAGE DIR..: begins a hook that is asked about directories: `targets` is what was recorded there. If nothing was, it ends.
look_through() {
    directories_only "$@"
    shift
    make_work_directory
    "$here/objects" "$@" > "$tmpdir/targets"
    [ -s "$tmpdir/targets" ] || refuse "$(nothing_here "$@")"
}
nothing_here() { echo "nothing was recorded below ${*:-.}: run it in the directory where make runs"; }

# numbers_here: what distinguishes the numbers of this tree from those of other trees, of its copies, and of before `make mrproper`.
numbers_here() { echo "$(cat "$numbers_name") $(pwd -P)"; }

# has_other_numbers DIR: do the records of the external module there have other numbers than this tree, so that they can't be compared?
has_other_numbers() {
    case $(cd "$1" && pwd -P)/ in
    "$(pwd -P)"/*) return 1 ;;
    esac
    [ -s "$numbers_name" ] && [ -e "$1/.confstamp.generation" ] && ! grep -qxF -e "$(numbers_here)" "$1/.confstamp.generation"
}

# recorded DIR..: writes the recorded objects that exist to `targets`, the others to `answers`. Objects that were never recorded, or whose
# command file was emptied, are targets too, except hidden ones: steps of the link of vmlinux, which make doesn't record.
recorded() {
    "$here/objects" "$@" > "$tmpdir/recorded"
    for directory; do
        ! has_other_numbers "$directory" || "$here/objects" "$directory"
    done > "$tmpdir/others"
    sed 's/$/ stale not-numbered/' "$tmpdir/others" > "$tmpdir/answers"
    awk 'FILENAME == ARGV[1] { other[$0]; next } !($0 in other)' "$tmpdir/others" "$tmpdir/recorded" | while read -r target; do
        if [ -e "$target" ]; then
            echo "$target" >&3
        else
            echo "$target stale no-object"
        fi
    done 3> "$tmpdir/targets" >> "$tmpdir/answers"
    [ "$#" -gt 0 ] || set -- .
    find_there -H "$@" \( -name '[!.]*.o' -o -name '.[!.]*.cmd' -size 0 \) -type f > "$tmpdir/found" || exit 2
    to_targets "$tmpdir/found" | sed 's,^\./,,' | sort -u | while read -r object; do
        commands_of "$object"
        [ -s "$commands" ] || [ ! -e "$object" ] || echo "$object"
    done >> "$tmpdir/targets"
}

# find_sources: where the `sources` are. Whoever isn't called by make has a link `source` in a build directory, and in BusyBox its makefile.
find_sources() {
    sources=${srctree:-.}
    [ "$dialect" = busybox ] || [ -e "$sources/Kconfig" ] || [ ! -e source/Kconfig ] || sources=source
    [ "$dialect" != busybox ] || [ -e "$sources/Config.in" ] || sources=$(sed -n 's/^KERNELSRC *:= *//p' Makefile)
}

# kconfigs: the Kconfig files that the project's tool has read, where they stand: one here comes before the one of the sources.
kconfigs() {
    find_sources
    awk -v sources="$sources" '
        inside && NF == 0 { exit }
        inside { print (sources != "." && (getline line < $1) < 0 ? sources "/" $1 : $1); close($1) }
        /^deps_config := / { inside = 1 }
    ' "$read_kconfigs"
}

# ask_conf: runs the project's own conf on a copy of .config; a new symbol gets its default. `asked` is the directory, in which links stand
# for the files that are here, so nothing is written here. It has the .config that conf wrote, and the auto.conf (in BusyBox that .config)
# and include/autoconf.h for `confstamp --written`. The environment is that which conf had from make. Why it fails is in $tmpdir/messages.
ask_conf() {
    here_now=$(pwd -P)
    asked=$tmpdir/conf
    mkdir "$asked"
    ln -s "$here_now"/* "$asked"
    rm -f "$asked/include"
    mkdir -p "$asked/include/config"
    cp "$config" "$asked/.config" 2> "$tmpdir/messages" || return 1
    find_sources
    (
        eval "$(sed -n "s/'/'\\\\''/g; s/^ifneq \"\$(\([A-Za-z_][A-Za-z0-9_]*\))\" \"\(.*\)\"\$/export \1='\2'/p" "$read_kconfigs")"
        srctree=$(realpath "$sources")
        export srctree KCONFIG_CONFIG=.config KCONFIG_AUTOCONFIG="$auto"
        export KCONFIG_AUTOHEADER=include/autoconf.h KCONFIG_RUSTCCFG=include/rustc_cfg
        cd "$asked"
        conf=scripts/kconfig/conf
        [ -x "$conf" ] || conf=tools/kconfig/conf
        [ -x "$conf" ] || { echo 'there is no scripts/kconfig/conf: make syncconfig builds it' && exit 1; }
        if [ "$dialect" = busybox ]; then
            yes '' | KERNELVERSION=$(sed -n 's/^ \* Busybox version: //p' "$here_now/include/autoconf.h") "./$conf" -o Config.in &&
                cp .config "$auto"
        else
            # An auto.conf that says what .config says gives conf no stamp to make.
            "./$conf" --olddefconfig Kconfig && cp .config "$auto" && "./$conf" --syncconfig Kconfig
        fi
    ) > "$tmpdir/messages" 2>&1 < /dev/null
}

# can_tell_declared: are the names known here that the project's Kconfig files declare, those in `declared`? Not if one can't be read.
can_tell_declared() {
    [ -e "$read_kconfigs" ] && kconfigs > "$tmpdir/kconfigs" 2> "$tmpdir/messages" &&
        each sed -nE 's/^[[:blank:]]*(menu)?config[[:blank:]]+([A-Za-z0-9_]+).*/\2/p' < "$tmpdir/kconfigs" > "$tmpdir/declared" \
            2> "$tmpdir/messages" && [ -s "$tmpdir/declared" ]
}

# Did the hooks make the last synchronisation? Linux's own tool writes auto.conf.cmd first, without the mark, and auto.conf last. BusyBox's
# own tools leave auto.conf, but their split-include empties each header in include/config that is no symbol's.
synchronised() {
    case $dialect:$(grep -hsx -e '#generation .*' -e "$mark" "$auto" "$auto.cmd") in
    :'#generation '*"$mark") ;;
    busybox:'#generation '*) [ -s "$split" ] ;;
    ?*:'#generation '*) ;;
    *) return 1 ;;
    esac
}

# patiently MESSAGES ARG..: runs the program, with its standard error in MESSAGES. Where another confstamp is at work (status 75) it waits
# for a second, and then, as it reports, for a hundred.
patiently() {
    messages=$1
    shift
    for seconds in 1 100; do
        status=0
        "$confstamp" --wait "$seconds" "$@" 2> "$messages" || status=$?
        [ "$status:$seconds" = 75:1 ] || break
        report 'waiting for another confstamp that is at work in this directory'
    done
    [ ! -s "$messages" ] || sed -i '/^confstamp: waiting /d' "$messages"
    return "$status"
}

# Of standard input, one a line: a time before all others. It is second 1, since 0 says to some tools that a file isn't there.
age_files() { each touch -c -d @1; }

# mark_due DIRECTORY [--unrecorded]: each object of DIRECTORY/targets that is stale by its record is due, and with --unrecorded also what is
# refused, or has no number. `due` is how many. The stamp of the symbol becomes the saved command, until the next record, so make compiles
# the object whatever its mtime. A record of another make may come between two parts of the list. Where a name has bytes that the program
# refuses, the command file is removed. Status 1: it isn't known, or the system fails.
mark_due() {
    due=0
    : > "$1/refused"
    awk -v directory="$1/" '{ print > (directory (/[^!-~]/ ? "refused" : "part." int((NR - 1) / 1000))) }' "$1/targets" || return 1
    while [ -n "${2:-}" ] && IFS= read -r object; do
        commands_of "$object"
        [ ! -e "$commands" ] || { rm -f "$commands" && due=$((due + 1)); }
    done < "$1/refused"
    for part in "$1"/part.*; do
        [ -e "$part" ] || continue
        marked=$(patiently "$1/messages" mark ${2:-} --from "$part") || {
            report "it is not known what is stale: $(head -n 2 "$1/messages" | tr '\n' ' ')"
            return 1
        }
        due=$((due + ${marked##* }))
    done
}

# still_theirs DIRECTORY: in a user's DIRECTORY the command files of `targets`, which root has marked, stay that user's.
still_theirs() {
    [ ! -O / ] || [ -O "$1" ] || to_commands "$tmpdir/targets" | each chown "$(stat -c %u:%g "$1")" 2> "$tmpdir/messages" || :
}

# age_to_come DIRECTORY RECORDED: what make links or packs, and has a future mtime, would look newer than what make writes from now on, so it
# is backdated. It stands beside what was recorded or above it, and has a command file, but for BusyBox itself. A directory that may not be
# listed, as one above a module's, is passed over.
age_to_come() {
    : > "$1/now"
    tools_to_come "$1"
    directories=$(directories_of "$2" | while read -r directory; do [ ! -r "$directory" ] || echo "$directory"; done)
    # shellcheck disable=SC2086 # the list is words, and Kbuild takes no path with a blank
    find_there $directories -maxdepth 1 ! -name '*.[chS]' ! -name '.*.cmd' -type f -newer "$1/now" > "$1/newer" || return 1
    [ -s "$1/newer" ] || return 0
    awk -v ahead="$1/ahead" '
        FILENAME == ARGV[1] { recorded[$0]; next }
        { sub(/^\.\//, "") }
        { if ($0 in recorded) print > ahead; else print }
    ' "$2" "$1/newer" | while read -r product; do
        commands_of "$product"
        { [ ! -e "$commands" ] && [ "${product%_unstripped}" != busybox ]; } || echo "$product"
    done | age_files
    [ ! -e "$1/ahead" ] || bring_to_now "$1"
}

# tools_to_come DIRECTORY: a tool with a makefile of its own, as Linux's objtool, is made of objects that nobody records. While one has a
# future mtime each make links the tool anew, and compiles what depends on it. So it gets the time of its command file, or of the tool.
tools_to_come() {
    for tool in tools/objtool/objtool tools/bpf/resolve_btfids/resolve_btfids; do
        [ -f "$tool" ] || continue
        [ -z "$(find "$tool" -newer "$1/now")" ] || touch -c "$tool"
        find "${tool%/*}" -name '*.o' -type f -newer "$1/now" | while read -r object; do
            commands_of "$object"
            [ -n "$(find "$commands" ! -newer "$1/now" 2> /dev/null)" ] || commands=$tool
            touch -c -r "$commands" "$object"
        done
    done
}

# bring_to_now DIRECTORY: an object of DIRECTORY/ahead is fresh, but make may be about to write a file that it is made of, such as the packed
# kernel of the boot code, so it gets the present time. Where such a file has a future mtime as well it keeps its own: else make would
# compile it each time until then.
bring_to_now() {
    to_commands "$1/ahead" | each awk '
        /^source_[^ ]* := / { print $3, FILENAME }
        /^  [^ $]+ \\$/ { print $1, FILENAME }
        sub(/.*: \$\(wildcard /, "") { sub(/\).*/, ""); print $1, FILENAME }
    ' 2> /dev/null | to_targets > "$1/made-of"
    cut -d ' ' -f 1 "$1/made-of" | sort -u | each sh -c 'find "$@" -prune -newer "$0" 2> /dev/null || :' "$1/now" > "$1/files-ahead"
    awk '
        FILENAME == ARGV[1] { ahead[$1]; next }
        FILENAME == ARGV[2] { known[$2]; if ($1 in ahead) kept[$2]; next }
        $0 in known && !($0 in kept)
    ' "$1/files-ahead" "$1/made-of" "$1/ahead" | each touch -c
}

# A function of awk: a path without `.`, and without `..` but at its front.
plain_path='
    function plain(path) {
        while (sub(/\/\.?\//, "/", path)) continue
        while (sub(/([^\/.]|\.[^\/.]|\.\.[^\/])[^\/]*\/\.\.\//, "", path)) continue
        sub(/^\.\//, "", path)
        return path
    }
'

# listing WORD..: of the files that find WORD.. finds lines `MTIME CTIME PATH`, to the nanosecond; with_times: of those of a list that exist.
listing() { find "$@" -print | with_times; }
with_times() {
    each stat -c '%Y %y|%Z %z|%n' 2> /dev/null | sed 's/^\([0-9]*\) [^.|]*\(\.[0-9]*\)[^|]*|\([0-9]*\) [^.|]*\(\.[0-9]*\)[^|]*|/\1\2 \3\4 /'
}

# time_of FILE: its mtime, or nothing.
time_of() { echo "$1" | with_times | cut -d ' ' -f 1; }

# The witness is a file that holds its own mtime, so where it was copied to one can see whether mtimes were kept. In a file system without
# times to less than a second it says another one. One that is wrong stays so until kbuild/restore has mended the times.
leave_witness() {
    touch "$clock_ref.now" && time_of "$clock_ref.now" | sed 's/\.0*$/.5/' > "$clock_ref.tmp" &&
        touch -r "$clock_ref.now" "$clock_ref.tmp" && mv -f "$clock_ref.tmp" "$clock_ref" && rm "$clock_ref.now"
}

# The first difference of .config to the configuration that was synchronised last; nothing where they say the same, which is known at once
# where the text is that of the hook's last synchronisation.
difference_of_config() {
    if ! synchronised; then
        echo 'nothing was synchronised yet'
    elif [ ! -f "$config" ]; then
        echo 'there is none'
    elif grep -qsxFf "$generation_file" "$auto" && cmp -s "$config" "$synced_config"; then
        return
    elif ask_conf; then
        { "$confstamp" ${dialect:+--dialect "$dialect"} diff --written "$asked/$auto" "$asked/include/autoconf.h" 2>&1 ||
            echo "confstamp diff ended with $?"; } |
            awk 'NR == 1 { first = substr($0, 1, 120) } END { if (NR) print first (NR > 1 ? ", and " NR - 1 " more" : "") }'
    else
        printf '%.120s\n' "conf can't read it: $(tail -n 1 "$tmpdir/messages")"
    fi
}

# by_count: how often each word of standard input stands there, the most frequent first.
by_count() { awk '{ count[$1]++ } END { for (word in count) printf "%7d %s\n", count[word], word }' | sort -k1,1nr -k2; }

# count_answers ANSWERS [WANTED]: prints how many objects are in which state. Status: 0 all are fresh, 1 some are stale, 2 some are refused,
# or fewer were answered than was wanted.
count_answers() {
    awk -v wanted="${2:-1}" '
        !/^ / { answers++; count[$2]++ }
        END {
            printf "%d objects: %d fresh, %d stale, %d refused\n", answers, count["fresh"], count["stale"], count["refused"]
            exit answers < wanted || count["refused"] ? 2 : count["stale"] > 0
        }
    ' "$1"
}

# by_directory: of answers a table of the directories with stale objects, the most first: how many, of how many, by which three symbols most.
by_directory() {
    awk '
        !/^ / {
            directory = $1
            if (!sub(/\/[^\/]*$/, "", directory)) directory = "."
            all[directory]++
        }
        $2 == "stale" { stale[directory]++; by[directory " " $3]++ }
        END {
            for (pair in by) {
                split(pair, part, " ")
                print stale[part[1]], all[part[1]], part[1], by[pair], part[2]
            }
        }
    ' | sort -k1,1nr -k3,3 -k4,4nr -k5,5 | awk '
        $3 != directory { printf "%s%7d of %5d %s: %s", end, $1, $2, $3, $5; directory = $3; shown = 1; end = "\n"; next }
        ++shown < 5 { printf ", %s", shown < 4 ? $5 : ".." }
        END { printf "%s", end }
    '
}

# judge_builds: of the answers about `targets` those that the configuration changes by the lines `obj-$(CONFIG_X) += x.o` of makefiles. A
# stale object is `left` if none builds it by .config, and a fresh one `stale X=m` or `stale X=y` if one of .config and the synchronised
# configuration has it built in, and the other in a module. What no line names, or one whose symbol isn't plain, counts as y, and so does an
# external module, whose symbols may be words of make. ask_conf comes before.
judge_builds() {
    makefiles=$(directories_of "$tmpdir/targets" | sed 's,^\./,,; /^\.\./d; s,$,/Kbuild,p; s,Kbuild$,Makefile,' |
        while read -r makefile; do [ ! -f "$sources/$makefile" ] || echo "$sources/$makefile"; done)
    sed -n 's/^CONFIG_\([A-Za-z0-9_]*\)=\([ym]\)$/old \1 \2/p' "$auto" > "$tmpdir/values" 2> "$tmpdir/messages" || :
    sed -n 's/^CONFIG_\([A-Za-z0-9_]*\)=\([ym]\)$/new \1 \2/p' "$asked/.config" >> "$tmpdir/values"
    # shellcheck disable=SC2086 # the list is words, and Kbuild takes no path with a blank
    awk -v sources="$sources/" "$plain_path"'
        function selected(time, selector,    name) {
            if (selector !~ /^-\$\(CONFIG_[A-Za-z0-9_]+\)$/) return "y"
            name = substr(selector, 11, length(selector) - 11)
            if (value["old", name] != value["new", name]) reason = name
            return value[time, name]
        }
        # How an object or a directory is built by its own lines: y, m, or not. Part of another object it is as that one, or not at all.
        function built(time, path, depth,    line, count, place, best, one) {
            if (!(path in lines) || depth > 9) return "y"
            count = split(lines[path], line, " ")
            for (place = 1; place < count; place += 2) {
                one = selected(time, line[place])
                if (one != "" && line[place + 1] != "-") one = built(time, line[place + 1], depth + 1)
                if (one == "y" || best == "") best = one
            }
            return best
        }
        FILENAME ~ /values$/ { value[$1, $2] = $3; next }
        # Lines `stem-selector += words`: `lines` has for each word the selectors with their dashes, each before the whole that the stem
        # names, or another dash.
        FILENAME ~ /\/(Kbuild|Makefile)$/ {
            $0 = (FNR == 1 ? "" : text) $0
            text = ""
            if (sub(/\\$/, " ")) { text = $0; next }
            sub(/[ \t]*#.*/, "")
            if (!/^[ \t]*[A-Za-z0-9_\/.-]+-[^ \t:=+?]+[ \t]*[:+?]?=/) next
            sub(/[ \t]*[:+?]?=/, " ")
            directory = substr(FILENAME, length(sources) + 1)
            sub(/[^\/]*$/, "", directory)
            match($1, /-\$\(.*$/) || match($1, /-[^-]*$/)
            stem = substr($1, 1, RSTART - 1)
            whole = stem ~ /^(obj|lib|extra|always|core|libs|drivers|net|targets|hostprogs)$/ ? "-" : plain(directory stem ".o")
            for (place = 2; place <= NF; place++) {
                path = plain(directory $place)
                if (path ~ /\.o$|\/$/) lines[path] = lines[path] " " substr($1, length(stem) + 1) " " whole
            }
            next
        }
        {
            new = built("new", $1)
            for (path = $1; sub(/[^\/]+\/?$/, "", path) && path != "";) if (built("new", path) == "") new = ""
            reason = ""
            old = built("old", $1)
            if (new == "" && $2 == "stale") $0 = $1 " left"
            if (new != "" && $2 == "fresh" && old != "" && old != new && reason != "") $0 = $1 " stale " reason "=" new
            print
        }
    ' "$tmpdir/values" $makefiles "$tmpdir/answers"
}

# list_recorded LIST ASIDE [FOUND]: what a list of records names, each once: `targets` has the name of its last record, which for an object
# of this tree may be its whole path, by `make M=DIR`; `recorded` has its path in the tree. A list with most lines several times gets each
# once, and with FOUND in front of it, by ASIDE.new; what another make adds to the old one meanwhile is added to it. Without hard links a
# long list stays. It belongs to the owner of the directory, also after a make of root, since make writes into it.
list_recorded() {
    [ -e "$1" ] || : > "$1"
    awk -v tmpdir="$tmpdir" -v tree="$PWD/" '
        FILENAME == ARGV[ARGC - 1] { lines++ }
        $1 != "record" { if (NR == 1 && NF) first = $0 "\n"; others++; next }
        !($0 in last) { once++ }
        { text[NR] = $0; last[$0] = NR; path = index($2, tree) == 1 ? substr($2, length(tree) + 1) : $2 }
        !(path in named) { paths[++count] = path }
        { named[path] = $2 }
        END {
            printf "" > (tmpdir "/recorded")
            for (place = 1; place <= count; place++) {
                print named[paths[place]]
                print paths[place] > (tmpdir "/recorded")
            }
            if (ARGC == 2 && lines - others <= 3 * once + 100) exit
            printf "%s", first > (tmpdir "/list")
            for (place = 1; place <= NR; place++) if (last[text[place]] == place) print text[place] > (tmpdir "/list")
            print lines + 1 > (tmpdir "/lines")
        }
    ' ${3:+"$3"} "$1" > "$tmpdir/targets"
    [ -e "$tmpdir/lines" ] || return 0
    ln -f "$1" "$2.old" 2> "$tmpdir/messages" || { [ -n "${3:-}" ] && cp "$1" "$2.old"; } || { rm "$tmpdir/lines" && return; }
    mv -f "$tmpdir/list" "$2.new"
    chown "$(stat -c %u:%g "${1%/*}")" "$2.new" 2> "$tmpdir/messages" || :
    mv -f "$2.new" "$1"
    tail -n "+$(cat "$tmpdir/lines")" "$2.old" >> "$1"
    rm "$2.old" "$tmpdir/lines"
}
