# SPDX-License-Identifier: Apache-2.0 OR MIT
# Proves the crates of the program side by side and builds it. Sourced by tools/install and tools/release, after they have set
# `top`, the top of the repository, and `log`, the file for the prover's output.
#
# CI's own command does it, `rt ci`, over a copy that has neither the mutants nor the crates of tests. So as many
# checks run at once as there are processors and as memory allows, what CI or an earlier call proved on this
# machine is taken from where the kit keeps it, and what comes of it is the program that CI tries.

# The program logic that the proofs were written for: what `rt version` has to print, whichever kit it is.
logic=dac8208d650f15bf

# The second at which each crate is proved on a machine of four processors: it begins behind those below it, and takes what it took in CI.
ends=' ks_streams 32 ks_symbols 227 ks_output 340 ks_tree 354 ks_compare 369 ks_hidden 400 ks_fixdep 545 ks_system 704
 ks_engine 988 ks_parallel 1071 ks_requests 1253 ks_cli 1408 ks_session 1504 ks_commands 1738 ks_builds 1798 confstamp 1960'
last_end=1960

# The lines of crates.txt for the program and all that it stands on; crates of tests alone are no part of it.
program_crates() {
    grep -v -e '^#' -e '^[a-z_]*_tests:' "$top/crates.txt"
}

# report CRATE HOW: one line of progress. What is left takes as much longer or shorter than by this table as what was proved until now.
report() {
    now=$(($(date +%s) - started))
    printf '  %2d:%02d %s %s' "$((now / 60))" "$((now % 60))" "$1" "$2"
    end=$(echo "$ends" | sed -n "s/.* $1 \([0-9]*\).*/\1/p")
    [ "${end:-0}" -le "$reached" ] || reached=$end
    if [ "$2" != proved ]; then
        [ "${end:-0}" -le "$kept" ] || kept=$end
    elif [ "$reached" -gt "$kept" ] && [ "$reached" -lt "$last_end" ]; then
        left=$(((last_end - reached) * now / (reached - kept)))
        printf ', about %d:%02d to go' "$((left / 60))" "$((left % 60))"
    fi
    echo
}

# The lines of `rt ci` go to the log, and one line is printed for each crate that is done.
follow() {
    started=$(date +%s) reached=0 kept=0
    while IFS= read -r line; do
        printf '%s\n' "$line" >> "$log"
        words=${line#rt: }
        case $line in
        'rt: '*' its tests '*) ;;
        'rt: '*' proved') report "${words% proved}" proved ;;
        'rt: '*' is kept: '*) report "${words%% *}" 'was proved here before' ;;
        esac
    done
}

# run_gate COPY [NAME=VALUE]: `rt ci` in the copy, with that in its environment; its status.
run_gate() {
    copy=$1
    shift
    (cd "$copy" && (env "$@" rt ci 2>&1 < /dev/null || echo "$?" > "$copy/.git/status") | follow)
    [ ! -e "$copy/.git/status" ] || return "$(cat "$copy/.git/status")"
}

# copy_program COPY: what a proof of the program reads, in that directory, which is new.
copy_program() {
    mkdir -p "$1/.git"
    program_crates > "$1/crates.txt"
    sed 's,:.*,,; s,^,crates/,' "$1/crates.txt" |
        tar -C "$top" --exclude=out --exclude=must-fail --exclude=mutants --exclude=host-mutants -cf - -T - HANDLES | tar -C "$1" -xf -
}

# prove_copy COPY: the program is there then, crates/confstamp/out/confstamp. A check that is killed is tried once more by
# `rt ci` itself; if that is in vain, all that is left is proved one at a time.
prove_copy() {
    : > "$log"
    ! run_gate "$1" || return 0
    grep -q 'the check was killed' "$log" || return 1
    echo 'memory was short: what is left is proved one at a time'
    rm "$1/.git/status"
    run_gate "$1" RT_JOBS=1
}

# prove_object COPY: the same, and its object file is there too, crates/confstamp/out/confstamp.o. What CI keeps is linked
# already, so the line of crates.txt is made to differ, by the status that holds without it as well: then everything but the program
# is taken as it is kept, and the program is compiled.
prove_object() {
    sed -i 's/^confstamp:/confstamp status=0:/' "$1/crates.txt"
    prove_copy "$1"
}

# prove_for COPY LEVEL: of a copy that is proved, the program for the processors of a level, x86-64-v3, and its object file. Which
# level that is stands in the verdict of a proof, so the last crate is proved for it too.
prove_for() {
    (cd "$1/crates/confstamp" && rt run --cpu "$2" -- --version) >> "$log" 2>&1 < /dev/null
}

# has_level LEVEL: whether the processor here is of it, by what the C library's loader says.
has_level() {
    for loader in /lib64/ld-linux-x86-64.so.2 /lib/ld-linux-x86-64.so.2; do
        [ ! -x "$loader" ] || "$loader" --help 2> /dev/null | grep -q "^ *$1 (supported" && return
    done
    return 1
}

# link_static OBJECT PROGRAM [WORD..]: links the object file and the kit's C code with the C library that is installed here in it, so
# that no loader has to find one at each start. The words go to the linker's C compiler too. False where there is no static library.
link_static() {
    object=$1 linked=$2
    shift 2
    kit=$(dirname "$(rt doc)")
    "${CC:-cc}" -static-pie -s -Wl,--gc-sections,-z,relro,-z,now,-z,noexecstack,--build-id=sha1,--fatal-warnings "$@" \
        -o "$linked" "$object" "$kit/c/libos_c.a" "$kit/c/liblibc_c.a"
}
