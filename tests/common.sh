# SPDX-License-Identifier: Apache-2.0 OR MIT
# What the tests beside this file share; sourced by them. Each prints one line, `NAME: COUNTS`, and ends with status 0
# (passed), 1 (a case failed) or 77 (skipped: something is missing here). CONFSTAMP is the program
# (crates/confstamp/out/confstamp), CC the C compiler (cc), TMPDIR where to work (/dev/shm where it has room, since
# thousands of small trees are made; else /tmp).

set -eu
LC_ALL=C
export LC_ALL

here=$(cd "$(dirname "$0")" && pwd)
root=$(cd "$here/.." && pwd)
sweep=$(basename "$0")
compiler=${CC:-cc}
failed=0

# The head of the script, where the only word is --help.
case ${1:-} in
-h | --help)
    sed -n '1d; /^# SPDX/d; 2,3{/^#$/d;}; /^#/!q; s/^# \{0,1\}//; p' "$0"
    exit 0
    ;;
esac

skip() {
    echo "$sweep: skipped: $1"
    exit 77
}

# A case failed. The sweep goes on with the next one, but not past 20.
fail() {
    echo "tests/$sweep: $1" >&2
    failed=$((failed + 1))
    [ "$failed" -lt 20 ] || finish 'given up'
}

# The one line, and the status.
finish() {
    echo "$sweep: $1, $failed failed"
    [ "$failed" = 0 ] || exit 1
    exit 0
}

# The program, by its absolute path.
find_confstamp() {
    confstamp=${CONFSTAMP:-$root/crates/confstamp/out/confstamp}
    [ -x "$confstamp" ] || skip "no program $confstamp: build it first, or set CONFSTAMP"
    confstamp=$(cd "$(dirname "$confstamp")" && pwd)/$(basename "$confstamp")
}

# $work: a directory that goes when the sweep ends.
make_work_directory() {
    place=${TMPDIR:-/tmp}
    if [ -z "${TMPDIR:-}" ] && [ -w /dev/shm ]; then
        room=$(df -Pk /dev/shm | awk 'NR == 2 { print $4 }')
        [ "$room" -lt 2000000 ] || place=/dev/shm
    fi
    work=$(mktemp -d "$place/confstamp-XXXXXX")
    trap 'chmod -R u+rwx "$work" 2> /dev/null; rm -rf "$work"' EXIT
    trap 'exit 1' HUP INT TERM
}

# compile NAME WORDS..: the C program $work/NAME.
compile() {
    command -v "$compiler" > /dev/null || skip "no C compiler $compiler"
    name=$1
    shift
    (cd "$here" && "$compiler" -std=c11 -O2 -o "$work/$name" "$@") 2> "$work/errors" || {
        cat "$work/errors" >&2
        skip "the C compiler cannot build $name"
    }
}

needs() {
    for tool; do
        command -v "$tool" > /dev/null || skip "no $tool"
    done
}

needs_strace() {
    needs strace
    strace -o "$work/log" true 2> "$work/errors" || skip "strace may not trace here: $(head -n 1 "$work/errors")"
}

# model_words: `TYPED=1` if auto.conf has the kinds of its entries, by docs/formats.md.
model_words() {
    ! grep -q '^#typed$' "$root/docs/formats.md" || echo TYPED=1
}

# The files of the examples in docs/formats.md, in the directory $1: a Kconfig of two symbols, three configurations, a source
# with two headers and its dependency file, and two scripts.
make_inputs() {
    mkdir -p "$1"
    printf '%s\n' 'mainmenu "Demo"' 'config A' '	bool' 'config B' '	tristate' > "$1/Kconfig"
    (cat "$1/Kconfig" && printf '%s\n' 'config D' '	bool') > "$1/K2"
    printf '%s\n' CONFIG_A=y CONFIG_B=m > "$1/.config"
    printf '%s\n' CONFIG_A=y CONFIG_B=m CONFIG_D=y > "$1/c2"
    printf '%s\n' CONFIG_B=m CONFIG_D=y > "$1/c3"
    printf '%s\n' CONFIG_B=m > "$1/without-a"
    printf '%s\n' '#ifdef CONFIG_A' CONFIG_B > "$1/x.c"
    echo 'CONFIG_B CONFIG_C_MODULE' > "$1/a.h"
    echo CONFIG_A > "$1/b.h"
    printf '%s\n' 'x.o: x.c a.h \' ' include/generated/autoconf.h a.h b.h' > "$1/x.d"
    printf '%s\n' 'sync K2 .config' 'record x.d x.o cc -c x.c' 'sync K2 c2' 'stale x.o' 'sync K2 c3' 'stale x.o' 'sync K2 c2' \
        'stale x.o' 'record x.d x.o cc -c x.c' 'stale x.o' > "$1/script"
    printf '%s\n' 'sync Kconfig without-a' 'record x.d y.o cc' 'stale x.o' 'sync K2 c2' 'stale y.o' > "$1/other-script"
}

# run DIRECTORY WORDS..: the program in that directory; $status, $work/output and $work/errors.
run() {
    status=0
    (cd "$1" && shift && exec "$confstamp" "$@") > "$work/output" 2> "$work/errors" < /dev/null || status=$?
}

# The first line of standard error.
error_line() {
    head -n 1 "$work/errors"
}

# error_text: standard error without the hint at its end, which has the number of the error that the first line reports, or that of a
# failure of the system. Where that hint is missing it says so.
error_text() {
    number=$(sed -n '1s/^confstamp: \([0-9][0-9]*\) .*/\1/p' "$work/errors")
    if tail -n 1 "$work/errors" | grep -q "^hint: ..* (confstamp explain ${number:-30})\$"; then
        sed '$d' "$work/errors"
    elif [ -z "$number" ]; then
        cat "$work/errors"
    else
        echo "no hint below error $number"
        cat "$work/errors"
    fi
}

# copy FROM TO: a fresh copy of a directory.
copy() {
    rm -rf "$2"
    cp -R "$1" "$2"
}

# unchanged AFTER BEFORE: whether a command left the tree as it was, without even a temporary file. What comes next is then
# what would have come before. `states` has to be compiled.
unchanged() {
    "$work/states" "$1" "$2" > "$work/log" 2>&1 && [ -z "$(find "$1" -name '*.tmp')" ]
}

# The lines of the header that define the name A.
definition() {
    grep -E '^#define CONFIG_A(_MODULE)? ' "$1/include/generated/autoconf.h" || true
}
