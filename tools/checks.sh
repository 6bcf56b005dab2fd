# SPDX-License-Identifier: Apache-2.0 OR MIT
# The checks of the program: each directory of examples/, and each executable file of tests/. Sourced by .ci/run and tools/test,
# which stand at the top of the repository then and have set CONFSTAMP. In bash.
#
# They go side by side, as many as there are processors, or as CHECKS_AT_ONCE says. One that fails is tried once more while no
# other runs, since those of several programs at once depend on the load of the machine; what the first try said is shown.
#
# Status 0 of a check is passed, 77 skipped, since a package that it needs isn't here; any other failed. What comes of them is
# counted in `passed` and `skipped`, and by name in `failed`; `reasons` has the last lines of each that failed. `log` is a file.
# shellcheck shell=bash disable=SC2154

seconds_allowed=600

# Those that take minutes. They begin first.
longest='tests/refused-memory tests/kills examples/make examples/projects tests/fuzz'

# how STATUS: in words how a check ended.
how() {
    case $1 in
    124) echo "no end after $seconds_allowed seconds" ;;
    *) echo "status $1" ;;
    esac
}

run_check() {
    case $1 in
    examples/*) set -- examples/check "${1#examples/}" ;;
    esac
    timeout -k 10 "$seconds_allowed" "$@" < /dev/null 2>&1
}

# report_check NAME LOG STATUS [WORDS]: the line of a check that passed or was skipped.
report_check() {
    case $3 in
    0) echo "$1: passed${4-}: $(tail -n 1 "$2")" ;;
    77) echo "$1: SKIPPED: $(tail -n 1 "$2")" ;;
    esac
}

# first_try NAME: what it printed, and its status, go to files.
first_try() {
    local status=0 file=$tried/${1//\//.}
    run_check "$1" > "$file.log" || status=$?
    report_check "$1" "$file.log" "$status"
    echo "$status" > "$file.status"
}

# second_try NAME STATUS: of one that ended so at first; `status` is how it ends now.
second_try() {
    sed 's/^/  first try: /' "$tried/${1//\//.}.log"
    status=0
    run_check "$1" > "$log" || status=$?
    report_check "$1" "$log" "$status" ' at the second try'
    case $status in
    0 | 77) return ;;
    esac
    sed 's/^/  /' "$log"
    echo "$1: FAILED with status $status"
    reasons+=("$1: $(how "$status"); at the first try $(how "$2"). The last lines:")
    mapfile -t -O "${#reasons[@]}" reasons < <(tail -n 6 "$log" | sed "s,^,$1: ," | cut -c 1-300)
}

# count_check NAME: what came of it.
count_check() {
    local status
    status=$(cat "$tried/${1//\//.}.status")
    case $status in
    0 | 77) ;;
    *) second_try "$1" "$status" ;;
    esac
    case $status in
    0) passed=$((passed + 1)) ;;
    77) skipped=$((skipped + 1)) ;;
    *) failed+=("$1") ;;
    esac
}

# The names of the checks.
each_check() {
    find examples tests -mindepth 1 -maxdepth 1 \( -path 'examples/*' -type d -o -path 'tests/*' -type f -perm -u+x \) | LC_ALL=C sort
}

# side_by_side COUNT FUNCTION NAME..: the function of each name, and as many at once.
side_by_side() {
    local name at_once=$1 function=$2 begun=0
    shift 2
    for name; do
        begun=$((begun + 1))
        [ "$begun" -le "$at_once" ] || wait -n
        "$function" "$name" &
    done
    wait
}

check_each() {
    local name tried long=${longest// /$'\n'}
    tried=$(mktemp -d) || exit 1
    # shellcheck disable=SC2046 # the names are words
    side_by_side "${CHECKS_AT_ONCE:-$(nproc)}" first_try $(each_check | grep -xF -e "$long"; each_check | grep -vxF -e "$long")
    for name in $(each_check); do
        count_check "$name"
    done
    rm -rf "$tried"
}

# What failed, once more behind all checks.
report_failed() {
    local each
    for each in ${reasons[@]+"${reasons[@]}"} ${failed[@]+"${failed[@]}"}; do
        echo "FAILED: $each"
    done
}
