# SPDX-License-Identifier: Apache-2.0 OR MIT
# The frame of the scripts beside this file, each of which sources it first: a command that fails ends the script, `top` is the top
# of the repository, and where the only word is --help, what stands at the script's head is printed.
# shellcheck shell=sh disable=SC2034

set -eu
LC_ALL=C
export LC_ALL

top=$(cd "$(dirname "$0")/.." && pwd)
script=tools/${0##*/}

if [ "$*" = --help ]; then
    sed -n '1d; /^# SPDX/d; 2,3{/^#$/d;}; /^#/!q; s/^# \{0,1\}//; p' "$0"
    exit
fi

# fail STATUS REASON
fail() {
    echo "$script: $2" >&2
    exit "$1"
}

# The arguments are wrong: those that the head shows are printed.
usage() {
    sed -n "s,^#     \($script\( [^ ][^ ]*\)*\).*,usage: \1,p" "$0" >&2
    exit 2
}

# `logic` is that of prove.sh, if the script has sourced it.
needs_kit() {
    command -v rt > /dev/null ||
        fail 2 "no Rattle kit here: put the directory bin of one${logic:+ of the logic $logic}, which has rt, into PATH, and run this again"
}

# $tmpdir: a directory that goes when the script ends.
make_tmpdir() {
    tmpdir=$(mktemp -d)
    trap 'rm -rf "$tmpdir"' EXIT
    trap 'exit 1' HUP INT TERM
}
