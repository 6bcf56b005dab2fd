# SPDX-License-Identifier: Apache-2.0 OR MIT
# What the measurements under bench/ share; sourced by them, after they have set `root` and `bench`.

fail() {
    echo "bench/$bench: $1" >&2
    exit 2
}

# The head of a script is its help.
if [ "${1-}" = --help ]; then
    sed -n '1d; /^# SPDX/d; 2,3{/^#$/d;}; /^#/!q; s/^# \{0,1\}//; p' "$0"
    exit
fi

# The absolute path of the program to be measured.
find_confstamp() {
    confstamp=${CONFSTAMP:-$root/crates/confstamp/out/confstamp}
    [ -x "$confstamp" ] || fail "no program $confstamp: build it first, or set CONFSTAMP"
    confstamp=$(cd "$(dirname "$confstamp")" && pwd)/$(basename "$confstamp")
}

make_work_directory() {
    work=$(mktemp -d)
    trap 'rm -rf "$work"' EXIT
    trap 'exit 1' HUP INT TERM
}

# A work directory in a file system in memory, where DIRECTORY does not name another one; `file_system` is which it is.
choose_directory() {
    directory=${DIRECTORY:-}
    if [ -z "$directory" ] && [ -d /dev/shm ] && [ -w /dev/shm ]; then
        directory=/dev/shm
    fi
    TMPDIR=${directory:-${TMPDIR:-/tmp}}
    export TMPDIR
    make_work_directory
    file_system=$(df -T "$work" | awk 'NR == 2 { print $2 }')
}

# Directories usr/src/linux-headers-VERSION-ARCH below $1 whose kbuild package is there and writes savedcmd_.
usable_trees() {
    for tree in "$1"/usr/src/linux-headers-*-amd64; do
        if [ -x "$tree/scripts/basic/fixdep" ] && [ -d "${tree%-amd64}-common/include" ] &&
            grep -q savedcmd_ "$tree/scripts/basic/fixdep"; then
            echo "$tree"
        fi
    done
}

# Unpacks a headers package, its common part and its kbuild package into $work/packages.
download_packages() {
    command -v apt-get > "$work/log" || fail 'no linux-headers package with a fixdep that writes savedcmd_, and no apt-get'
    for meta in linux-headers-amd64 linux-headers-6.12-amd64; do
        package=$(apt-cache depends "$meta" 2> "$work/log" |
            sed -n 's/.*Depends: \(linux-headers-.*-amd64\)$/\1/p' | head -n 1)
        [ -n "$package" ] || continue
        release=${package#linux-headers-}
        release=${release%-amd64}
        dpkg --compare-versions "${release%%[!0-9.]*}" ge 6.2 || continue
        echo "downloading $package" >&2
        mkdir -p "$work/packages"
        (cd "$work/packages" && apt-get -q download "$package" "${package%-amd64}-common" "linux-kbuild-$release") \
            > "$work/log" 2>&1 || fail "apt-get could not download $package"
        for archive in "$work/packages"/*.deb; do
            dpkg-deb -x "$archive" "$work/packages"
        done
        return 0
    done
    fail 'apt knows no linux-headers of Linux 6.2 or later; apt-get update may help'
}

# $work/tree: one directory that looks as a built kernel's source tree: the common headers and the generated ones together. The
# kernel's program goes to $work/kernel-fixdep.
merge_tree() {
    tree=$(usable_trees "${HEADERS:-}" | tail -n 1)
    if [ -z "$tree" ]; then
        [ -z "${HEADERS:-}" ] || fail "no headers package with a fixdep that writes savedcmd_ in $HEADERS"
        download_packages
        tree=$(usable_trees "$work/packages" | tail -n 1)
        [ -n "$tree" ] || fail 'the downloaded packages hold no fixdep that writes savedcmd_'
    fi
    mkdir -p "$work/tree/samples"
    cp -R "${tree%-amd64}-common/include" "${tree%-amd64}-common/arch" "$work/tree"
    cp -R "$tree/include" "$tree/arch" "$work/tree"
    cp "$tree/scripts/basic/fixdep" "$work/kernel-fixdep"
}

# install_tool COMMAND PACKAGE: true if the command is there in the end.
install_tool() {
    command -v "$1" > /dev/null && return 0
    [ "$(id -u)" = 0 ] && command -v apt-get > /dev/null || return 1
    DEBIAN_FRONTEND=noninteractive apt-get -q install -y --no-install-recommends "$2" > "$work/apt.log" 2>&1 || return 1
    command -v "$1" > /dev/null
}

# The run is written in the temporary directory, so that one which is interrupted leaves nothing.
start_run() {
    cut -d ' ' -f 1-3 /proc/loadavg > "$work/load"
    run=$work/run
    mkdir "$run"
    echo 'case,run,value' > "$run/raw.csv"
}

# Keeps the run in a new directory: one that is there already is never touched, the next one of a day gets a number.
keep_run() {
    machine=$(printf '%s' "${MACHINE:-$(uname -n)}" | tr -c 'A-Za-z0-9_-' '-')
    mkdir -p "$root/bench/runs"
    first=$root/bench/runs/$(date +%Y-%m-%d)-$machine-$bench
    kept=$first
    number=1
    while ! mkdir "$kept" 2> "$work/log"; do
        [ -d "$kept" ] || fail "can't make the directory $kept"
        number=$((number + 1))
        kept=$first-$number
    done
    cp "$run"/* "$kept"
    echo "$kept"
}

# end_run WORD..: what the script was called with, and what came out, by its own `describe` and `summarise`; then the run is
# kept. Status 1 where a target is missed.
end_run() {
    missed=0
    describe "$@" > "$run/README.md"
    summarise > "$run/summary" || missed=1
    keep_run
    cat "$run/summary"
    exit "$missed"
}

# What stands in the README.md of every run: the command and what it ran on.
describe_machine() {
    echo "- command: \`bench/$bench${1:+ $1}\`, on $(date -u +%Y-%m-%dT%H:%M:%SZ)"
    echo "- kit: $(rt version 2> /dev/null || echo 'rt is not here')"
    echo "- confstamp: $(cksum < "$confstamp" | awk '{ print $2 " bytes, cksum " $1 }')$(commit)"
    echo "- kernel: $(uname -srm)"
    echo "- processor: $(sed -n 's/^model name[[:space:]]*: //p' /proc/cpuinfo | head -n 1), $(nproc) cores"
    echo "- memory: $(awk '/^MemTotal/ { printf "%.1f GB", $2 / 1048576 }' /proc/meminfo)"
    echo "- load before the run: $(cat "$work/load")"
}

commit() {
    git -C "$root" describe --always --dirty 2> /dev/null | sed 's/^/, repository at /'
}

# time_runs CASE COUNT COMMAND..: appends lines `CASE,RUN,NANOSECONDS` to raw.csv, after one run that isn't counted.
# What the command prints goes to $work/output. The time is that of the whole process, with the start of one `date`.
time_runs() {
    label=$1
    count=$2
    shift 2
    "$@" > "$work/output" < /dev/null || fail "status $? of: $*"
    index=0
    while [ "$index" -lt "$count" ]; do
        index=$((index + 1))
        start=$(date +%s%N)
        "$@" > "$work/output" < /dev/null || fail "status $? of: $*"
        end=$(date +%s%N)
        echo "$label,$index,$((end - start))" >> "$run/raw.csv"
    done
}

# time_once CASE COMMAND..: one line of raw.csv, for the round `index`; the round 0 isn't counted.
time_once() {
    label=$1
    shift
    start=$(date +%s%N)
    "$@" > "$work/output" < /dev/null || fail "status $? of: $*"
    end=$(date +%s%N)
    [ "$index" = 0 ] || echo "$label,$index,$((end - start))" >> "$run/raw.csv"
}

# peak CASE COMMAND..: peak resident memory in kilobytes.
peak() {
    label=$1
    shift
    /usr/bin/time -f %M -o "$work/peak" "$@" > "$work/output" < /dev/null || fail "status $? of: $*"
    echo "peak,$label,$(tail -n 1 "$work/peak")" >> "$run/raw.csv"
}

# best CASE, median CASE: in milliseconds.
best() {
    sorted "$1" | awk 'NR == 1 { printf "%.2f", $1 / 1e6 }'
}

median() {
    sorted "$1" | awk '{ t[NR] = $1 } END { printf "%.2f", (t[int((NR + 1) / 2)] + t[int(NR / 2) + 1]) / 2e6 }'
}

sorted() {
    awk -F , -v label="$1" '$1 == label { print $3 }' "$run/raw.csv" | sort -n
}

# make_input DIRECTORY SYMBOLS WIDTH: a Kconfig and a .config of that many symbols, their names at least WIDTH bytes long.
# Of 100 symbols 26 are y, 40 m, 20 not set, 6 int, 4 string, 2 hex, 1 string with escapes, 1 without a line. The
# order is not that of the names, as in a real file.
make_input() {
    mkdir -p "$1"
    awk -v directory="$1" -v symbols="$2" -v width="$3" '
        BEGIN {
            kconfig = directory "/Kconfig"
            dotconfig = directory "/.config"
            filler = "DRIVER_OF_SOME_DEVICE_WITH_A_RATHER_LONG_NAME"
            print "mainmenu \"Linux/bench 1.0 Kernel Configuration\"\n" > kconfig
            print "#\n# Automatically generated file; DO NOT EDIT." > dotconfig
            print "# Linux/bench 1.0 Kernel Configuration\n#" > dotconfig
            step = 7919
            for (place = 0; place < symbols; place++) {
                number = (place * step) % symbols
                name = sprintf("%s_%d", substr("BENCH", 1 + number % 4), number)
                if (length(name) < width) name = name "_" substr(filler, 1, width - length(name) - 1)
                form = number % 100
                off = 0
                if (form < 26) { kind = "bool"; value = "y" }
                else if (form < 66) { kind = "tristate"; value = "m" }
                else if (form < 86) { kind = form % 2 ? "bool" : "tristate"; off = 1 }
                else if (form < 92) { kind = "int"; value = form == 86 ? -number : number }
                else if (form < 96) { kind = "string"; value = "\"/sbin/driver-" number " --some option\"" }
                else if (form < 98) { kind = "hex"; value = sprintf("0x%x", number) }
                else if (form < 99) { kind = "string"; value = "\"a \\\"quoted\\\" word and a \\\\\"" }
                else { kind = "string"; value = "" }
                printf "config %s\n\t%s\n", name, kind > kconfig
                if (off) printf "# CONFIG_%s is not set\n", name > dotconfig
                else if (value != "") printf "CONFIG_%s=%s\n", name, value > dotconfig
            }
        }
    '
}

# The same symbols for the kernel's conf: it takes a value of .config only for a symbol with a prompt, and m only where
# a symbol with the attribute `modules` is y; and it asks about a string that has no line.
make_input_for_conf() {
    mkdir -p "$2"
    {
        sed 's/^\t\(.*\)$/\t\1 "prompt"/' "$1/Kconfig"
        printf 'config MODULES\n\tbool "modules"\n\tmodules\n'
    } > "$2/Kconfig"
    {
        cat "$1/.config"
        echo CONFIG_MODULES=y
        awk '
            FILENAME ~ /Kconfig$/ { if ($1 == "config") name = $2; else if ($1 == "string") strings[name] = 1; next }
            match($0, /CONFIG_[A-Z0-9_]*/) { delete strings[substr($0, RSTART + 7, RLENGTH - 7)] }
            END { for (name in strings) print "CONFIG_" name "=\"\"" }
        ' "$1/Kconfig" "$1/.config"
    } > "$2/.config"
}

# The kernel's program: CONF, or one of an installed package, or the one beside the objects of bench/make-objects.
find_conf() {
    conf=${CONF:-}
    for candidate in "$(cache_directory)/linux-6.12/conf" /usr/lib/linux-kbuild-*/scripts/kconfig/conf; do
        if [ -z "$conf" ] && [ -x "$candidate" ]; then
            conf=$candidate
        fi
    done
    [ -n "$conf" ]
}

# Where what takes long to make is kept.
cache_directory() {
    echo "${CACHE:-${XDG_CACHE_HOME:-$HOME/.cache}/confstamp}"
}
