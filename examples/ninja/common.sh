# SPDX-License-Identifier: Apache-2.0 OR MIT
# What the checks of examples/ninja, examples/cmake and examples/meson share; sourced by them, after they have set
#     example             its name
#     directory              where the build runs, below the tree
#     tool                the words that build, there
#     configure           a function: makes $work/TREE ready to be built, for the TREE that is its word
# The sources are those of examples/make, a C program of twelve; Kconfig and .config stand beside this file. They are built
# twice: with confstamp-cc in the tree `stamps`, and without it in the tree `plain`.

set -eu
LC_ALL=C
export LC_ALL
unset MAKEFLAGS MFLAGS MAKELEVEL NINJA_STATUS CFLAGS

root=$(cd "$(dirname "$0")/../.." && pwd)
confstamp=${CONFSTAMP:-$root/crates/confstamp/out/confstamp}
unset CONFSTAMP
label='to begin with'

fail() {
    echo "examples/$example/check: $label: $1" >&2
    exit 1
}

skip() {
    echo "skipped: $1"
    exit 77
}

needs() {
    for needed; do
        command -v "$needed" > "$work/log" || skip "no $needed"
    done
}

work=$(mktemp -d)
trap 'rm -rf "$work"' EXIT
trap 'exit 1' HUP INT TERM

[ -x "$confstamp" ] || fail "no program $confstamp: build it first, or set CONFSTAMP"
needs "${CC:-cc}" ninja ps setsid

# As tools/install puts them.
mkdir -p "$work/bin" "$work/lib/confstamp/ninja"
cp "$confstamp" "$root/ninja/confstamp-cc" "$root/ninja/confstamp-sync" "$work/bin"
cp "$root/ninja/confstamp.cmake" "$work/lib/confstamp/ninja"
# The compiler tells what it compiles. Where there is a file `slow` it takes its time.
cat > "$work/bin/cc" << WORDS
#!/bin/sh
case " \$* " in
*autoconf.h*' -c '*)
    previous=
    for word; do
        [ "\$previous" != -o ] || echo "\$word" >> "$work/compiled"
        previous=\$word
    done
    [ ! -e "$work/slow" ] || sleep 0.3
    ;;
esac
exec "$(command -v "${CC:-cc}")" "\$@"
WORDS
# confstamp-cc looks into scripts, and into no other program: this one calls the script.
mv "$work/bin/cc" "$work/bin/cc.sh"
"$(command -v "${CC:-cc}")" -x c - -DSCRIPT="\"$work/bin/cc.sh\"" -o "$work/bin/cc" << 'END'
#include <unistd.h>
int main(int count, char **words)
{
    char *all[count + 2];
    all[0] = "sh";
    all[1] = SCRIPT;
    for (int at = 1; at <= count; at++)
        all[at + 1] = words[at];
    return execv("/bin/sh", all);
}
END
PATH=$work/bin:$PATH
export PATH
unset CC

all='core/banner core/buffer core/count core/mask core/name core/output core/repeat lang/english lang/french lang/table
    lang/words main'

# The words in order, on one line.
sorted() {
    printf '%s\n' "$@" | sort | tr '\n' ' '
}

# same WHAT WANTED GOT
same() {
    [ "$2" = "$3" ] || fail "$1: wanted '$2', got '$3'"
}

# make_tree TREE: the sources of examples/make, this example's own files, and the configuration to begin with.
make_tree() {
    mkdir "$work/$1"
    cp "$root"/examples/make/*.[ch] "$root/examples/ninja/Kconfig" "$root/examples/ninja/.config" "$work/$1"
    cp -R "$root/examples/make/core" "$root/examples/make/lang" "$root/examples/$example/." "$work/$1"
}

# build TREE
build() {
    # shellcheck disable=SC2086 # the list is words
    (cd "$work/$1/$directory" && $tool)
}

# compiled: what was compiled since the last call. CMake has greet.dir/core/mask.c.o, and Meson greet.p/core_mask.c.o.
compiled() {
    [ ! -e "$work/compiled" ] || sed -E 's,^.*\.(dir|p)/,,; s,(\.c)?\.o$,,; s,_,/,' "$work/compiled" | sort
    rm -f "$work/compiled"
}

# builds TREE WANTED..: what is compiled, and that a further run does nothing.
builds() {
    tree=$1
    shift
    build "$tree" > "$work/log" 2>&1 || fail "$tree: $(cat "$work/log")"
    [ "$tree" = plain ] || ! grep confstamp-cc: "$work/log" || fail 'the launcher told that'
    # shellcheck disable=SC2046 # the list is words
    same "compiled in $tree" "$(sorted "$@")" "$(sorted $(compiled))"
    build "$tree" > "$work/log" 2>&1 || fail "$tree: a further run: $(cat "$work/log")"
    same "compiled in $tree by a further run" '' "$(compiled)"
}

# objects TREE: each of them, as the tool that builds names them.
objects() {
    (cd "$work/$1/$directory" && find . -name '*.o' | sed 's,^\./,,' | sort)
}

# The objects of the tree are those of another one, byte for byte, and confstamp calls all of them fresh.
settled() {
    objects stamps > "$work/objects"
    same 'objects' 12 "$(wc -l < "$work/objects" | tr -d ' ')"
    while read -r object; do
        cmp -s "$work/stamps/$directory/$object" "$work/$1/$directory/$object" || fail "$object is not as in the tree $1"
    done < "$work/objects"
    # shellcheck disable=SC2046 # the list is words
    (cd "$work/stamps/$directory" && confstamp stale $(cat "$work/objects")) > "$work/log" || fail "not fresh: $(cat "$work/log")"
}

edit() {
    for tree in stamps plain; do
        sed "$1" "$work/$tree/.config" > "$work/config"
        cp "$work/config" "$work/$tree/.config"
    done
}

# change LABEL EDIT WANTED..: a change of .config. All is compiled without confstamp.
change() {
    label=$1
    edit "$2"
    shift 2
    builds stamps "$@"
    # shellcheck disable=SC2086 # the list is words
    builds plain $all
    settled plain
    reported="$reported, $label $#"
}

first_builds() {
    label='the first build'
    for tree in stamps plain; do
        make_tree "$tree"
        configure "$tree" > "$work/log" 2>&1 || fail "configure $tree: $(cat "$work/log")"
        rm -f "$work/compiled"
        # shellcheck disable=SC2086 # the list is words
        builds "$tree" $all
    done
    settled plain
    reported=
}

kinds_of_changes() {
    change 'a symbol that nobody mentions' '$aCONFIG_POLITE=y'
    change bool 's/^CONFIG_LOUD=y/# CONFIG_LOUD is not set/' core/banner
    change 'tristate to m' 's/FRENCH=y/FRENCH=m/' core/count lang/table
    change string '$aCONFIG_NAME="you and me"' core/name
    change int 's/TIMES=2/TIMES=3/' core/output core/repeat
    change hex 's/0x10/0x1/' core/mask
    change 'a symbol that comes' '$aCONFIG_DEBUG_SG=y' core/buffer
    change 'two that go' '/NAME/d; /DEBUG/d' core/name core/buffer
}

# .config is written once more, with the same symbols.
only_its_time() {
    label='no change'
    edit '$a# a comment'
    builds stamps
}

# fresh TREE: the same configuration, built anew.
fresh() {
    label="$label, beside a fresh build"
    rm -rf "$work/fresh"
    make_tree fresh
    cp "$work/stamps/.config" "$work/fresh/.config"
    configure fresh > "$work/log" 2>&1 || fail "$(cat "$work/log")"
    build fresh > "$work/log" 2>&1 || fail "$(cat "$work/log")"
    rm -f "$work/compiled"
    settled fresh
    same 'the program says' "$("$work/fresh/$directory/greet")" "$("$work/stamps/$directory/greet")"
}

# output.c takes at most nine.
failing_compile() {
    label='a compile that fails'
    edit 's/TIMES=3/TIMES=12/'
    ! build stamps > "$work/log" 2>&1 || fail 'the build succeeded'
    grep -q 'a line has room for nine greetings' "$work/log" || fail "$(cat "$work/log")"
    rm -f "$work/compiled"
    edit 's/TIMES=12/TIMES=4/'
    builds stamps core/output core/repeat
    fresh
}

# Where nothing is recorded an object keeps the header of all symbols, until it is recorded again.
without_record() {
    label='the launcher has nothing recorded'
    printf '#!/bin/sh\n[ "$1" != depfile ] || exit 2\nexec "%s/bin/confstamp" "$@"\n' "$work" > "$work/none"
    chmod +x "$work/none"
    edit '$aCONFIG_DEBUG_SG=y'
    CONFSTAMP=$work/none build stamps > "$work/log" 2>&1 || fail "$(cat "$work/log")"
    same 'compiled' core/buffer "$(compiled)"
    label='after that'
    edit 's/0x1$/0x3/'
    builds stamps core/buffer core/mask
    edit 's/0x3$/0x1/'
    builds stamps core/mask
    fresh
}

# in_session: the processes of the build that was begun in a session of its own. ninja gives each command a group.
in_session() {
    ps -e -o pid= -o sid= | awk -v session="$(cat "$work/leader")" '$2 == session { print $1 }'
}

# killed SIGNAL: the build is killed, with all that it runs, when some of the objects are compiled.
killed() {
    label='a killed build'
    edit 's/TIMES=4/TIMES=5/; s/0x1$/0x5/; /DEBUG/d; s/FRENCH=m/FRENCH=y/; $aCONFIG_LOUD=y'
    : > "$work/slow"
    : > "$work/compiled"
    # shellcheck disable=SC2016 # the words are the inner shell's
    setsid sh -c 'echo "$$" > "$0"; cd "$1" && $2' "$work/leader" "$work/stamps/$directory" "$tool" > "$work/log" 2>&1 &
    waited=0
    while [ "$(wc -l < "$work/compiled")" -lt 3 ]; do
        sleep 0.05
        waited=$((waited + 1))
        [ "$waited" -lt 400 ] || fail "nothing is compiled: $(cat "$work/log")"
    done
    while [ -n "$(in_session)" ]; do
        in_session | xargs kill -"$1" 2> "$work/errors" || :
    done
    wait || :
    rm -f "$work/slow" "$work/compiled"
    build stamps > "$work/log" 2>&1 || fail "$(cat "$work/log")"
    rm -f "$work/compiled"
    builds stamps
    fresh
}

# block KIND: the lines so marked below the heading $heading of docs/ninja.md.
block() {
    awk -v heading="$heading" -v kind="$1" '/^#/ && !inside { here = $0 == heading } here && inside && !/^```/ && NF { print }
        /^```/ { inside = !inside && $0 == "```" kind }' "$root/docs/ninja.md" > "$work/block"
    [ -s "$work/block" ] || fail "no lines of $1"
}

# stands_in FILE KIND: each line of the page is one of the file.
stands_in() {
    block "$2"
    while IFS= read -r line; do
        grep -qxF -e "$line" "$root/examples/$example/$1" || fail "not in $1: $line"
    done < "$work/block"
}

# page HEADING FILE KIND: the page says what the example has, and its commands do what it says.
page() {
    heading=$1
    label="docs/ninja.md, $1"
    stands_in "$2" "$3"
    block sh
    make_tree page
    cd "$work/page"
    while IFS= read -r line <&3; do
        rm -f "$work/compiled"
        eval "$line" > "$work/log" 2>&1 3<&- || fail "status $? of '$line': $(cat "$work/log")"
    done 3< "$work/block"
    # shellcheck disable=SC2046 # the list is words
    same 'compiled by the last line' 'core/output core/repeat ' "$(sorted $(compiled))"
}

finish() {
    echo "ok: 12 objects compiled each time without confstamp, and with it: ${reported#, }"
}
