# SPDX-License-Identifier: Apache-2.0 OR MIT
# What tools/install puts where, tools/uninstall takes away and tools/release packs. Sourced by them, after they have set
# `top`, the top of the repository, and `made`, where what was built lies, if that is another place than tools/install's.

made=${made:-out/install}

# A line SOURCE PLACE for each file: SOURCE below the top of the repository, PLACE below PREFIX.
installed_files() {
    cat << END
$made/confstamp bin/confstamp
tools/bare-kconfig bin/bare-kconfig
tools/paste-check bin/paste-check
ninja/confstamp-cc bin/confstamp-cc
ninja/confstamp-sync bin/confstamp-sync
ninja/confstamp.cmake lib/confstamp/ninja/confstamp.cmake
make/confstamp.mk lib/confstamp/make/confstamp.mk
END
    for program in confstamp confstamp-kbuild; do
        echo "$made/$program.bash share/bash-completion/completions/$program"
        echo "$made/$program.zsh share/zsh/site-functions/_$program"
        echo "$made/$program.fish share/fish/vendor_completions.d/$program.fish"
    done
    (cd "$top" && find docs/*.1 docs/*.md kbuild/* -prune -type f) | sed '
        s,^docs/\(.*\.1\)$,& share/man/man1/\1,
        s,^docs/.*\.md$,& share/doc/confstamp/&,
        s,^kbuild/confstamp-kbuild$,& bin/confstamp-kbuild,
        s,^kbuild/[^ ]*$,& lib/confstamp/&,
    '
}

# make_completions PROGRAM: the files of completion among them.
make_completions() {
    for shell in bash zsh fish; do
        "$top/tools/completion" "$shell" "$1" > "$top/$made/confstamp.$shell"
        "$top/tools/completion" "$shell" "$top/kbuild/confstamp-kbuild" > "$top/$made/confstamp-kbuild.$shell"
    done
}

# put_files PREFIX: all of them below PREFIX.
put_files() {
    installed_files | while read -r source place; do
        mode=644
        [ ! -x "$top/$source" ] || mode=755
        mkdir -p "$1/${place%/*}"
        install -m "$mode" "$top/$source" "$1/$place"
    done
}

# packed_readme: README.md without its links to what is not packed, also where one goes over the end of a line.
packed_readme() {
    sed -Ez 's,\[([^][]*)\]\((bench|tests|examples|HACKING|\.)[^()]*\),\1,g' "$top/README.md"
}

# take_prefix WORDS..: `prefix`, which is the word, or ~/.local without one.
take_prefix() {
    case $#:${1-} in
    0: | 1:[!-]*) prefix=${1:-$HOME/.local} ;;
    *) usage ;;
    esac
}
