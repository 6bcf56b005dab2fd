# SPDX-License-Identifier: Apache-2.0 OR MIT
# What the stories of examples/linux/caches share, and the stories; sourced by it.

# ends STATUS COMMAND: what it prints goes to `log`.
ends() {
    status=0
    eval "$2" > "$work/log" 2>&1 || status=$?
    [ "$status" = "$1" ] || fail "$label: status $status of '$2': $(tail -n 5 "$work/log")"
}

# says TEXT: the last command did.
says() {
    grep -qF -e "$1" "$work/log" || fail "$label: wanted '$1', got $(tail -n 20 "$work/log")"
}

# begin LABEL: the tree as its first build left it. `changed` lists the sources that the story changes.
begin() {
    label=$1
    changed=
    out=
    cd "$work"
    ! umount linux 2> "$work/log" || :
    rm -rf linux aside cache cache.tar
    tar -xf base.tar
    cd linux
}

# configure WORDS: of scripts/config.
configure() {
    ends 0 "scripts/config $1 && make olddefconfig"
}

# The targets that the last make compiled.
compiled() {
    awk '/^  (CC|AS|LDS) / { print $2 ~ /^\[/ ? $3 : $2 }' "$work/log" | sort
}

# make_all: all that is to be built; `compiled` lists what make compiled. Then nothing is left to do.
make_all() {
    ends 0 'make -j$(nproc)'
    compiled > "$work/compiled"
    nothing_left
}

nothing_left() {
    "$hooks/stale" > "$work/log" 2>&1 || [ "$?" = 1 ] || fail "$label: stale: $(tail -n 3 "$work/log")"
    ! grep -q -e not-numbered -e ' refused [0-9]' "$work/log" ||
        fail "$label: $(grep -m 3 -e not-numbered -e ' refused [0-9]' "$work/log")"
    ends 0 "$hooks/stale --make -j\$(nproc)"
    asked=$(tail -n 1 "$work/log")
    asked=${asked%%;*}
}

# how_many FILE: of lines.
how_many() {
    wc -l < "$1" | tr -d ' '
}

products() {
    find . -path ./tools -prune -o \( -name '*.[oa]' -o -name '*.ko' -o -name vmlinux -o -name System.map -o -name bzImage \) \
        -type f -print | sort
}

# clean_build: $sums are those of all products of a clean build of these sources and this .config, by the kernel's own tools. It
# is made at the same place, since boot code says where it was compiled, and kept for the next time.
clean_build() {
    sums=$work/clean/$({ echo "$out"; cat "${out:-.}/.config"; for file in $changed; do echo "$file"; cat "$file"; done; } |
        sha256sum | cut -c 1-16)
    [ ! -e "$sums" ] || return 0
    mkdir -p "$work/clean"
    (
        cd "$work"
        mv linux aside
        [ -z "$out" ] || mv "$out" "$out.aside"
        tar -xf sources.tar
        cd linux
        for file in $changed; do cp "../aside/$file" "$file"; done
        PATH=$path_before
        if [ -n "$out" ]; then
            mkdir "$out"
            cp "$out.aside/.config" "$out"
            make O="$out" -j"$(nproc)" && cd "$out"
        else
            cp ../aside/.config .
            make -j"$(nproc)"
        fi > "$work/clean.log" 2>&1 || exit 1
        products | tr '\n' '\0' | xargs -0 sha256sum > "$sums.tmp"
        cd "$work"
        rm -rf linux
        mv aside linux
        [ -z "$out" ] || { rm -rf "$out"; mv "$out.aside" "$out"; }
    ) || fail "$label: a clean build: $(tail -n 5 "$work/clean.log")"
    [ "$(how_many "$sums.tmp")" -gt 300 ] || fail "$label: a clean build has few products"
    mv "$sums.tmp" "$sums"
}

# same_as_clean: each product is that of a clean build.
same_as_clean() {
    clean_build
    (cd "${out:-.}" && sha256sum -c --quiet "$sums") > "$work/other" 2>&1 ||
        fail "$label: not as a clean build makes it: $(head -n 5 "$work/other")"
}

# through_a_cache WAY: by tar, which keeps times, or their seconds, or none.
through_a_cache() {
    cd "$work"
    case $1 in
    --touch) tar --posix -cf cache.tar linux ;;
    *) tar "$1" -cf cache.tar linux ;;
    esac
    rm -rf linux
    case $1 in
    --touch) tar --touch -xf cache.tar ;;
    *) tar -xf cache.tar ;;
    esac
    rm cache.tar
    cd linux
}

# log_buffer: how many bytes of vmlinux it has.
log_buffer() {
    echo "$((0x$(nm -S vmlinux | awk '$4 == "__log_buf" { print $2 }')))"
}

# What was compiled and not linked, by each way through a cache, or none.
links_still_due() {
    for way in none --posix --format=gnu --touch; do
        begin "a link still to be done, by $way"
        configure '--set-val LOG_BUF_SHIFT 14'
        ends 0 'make -j$(nproc) kernel/'
        [ "$way" = none ] || through_a_cache "$way"
        ends 0 "$hooks/restore"
        kept=$(head -n 1 "$work/log")
        ends 0 'make -j$(nproc)'
        compiled > "$work/compiled"
        [ "$(log_buffer)" = 16384 ] || fail "$label: __log_buf has $(log_buffer) bytes"
        ends 0 "$hooks/stale"
        nothing_left
        same_as_clean
        say "$label: $kept; make compiled $(how_many "$work/compiled"), for what follows a link; __log_buf has 16384 bytes;" \
            "$asked"
    done
}

# make_history: a repository with one commit, that of the sources.
make_history() {
    rm -rf "$work/history.git"
    git="git --git-dir=$work/history.git --work-tree=. -c user.name=one -c user.email=one@here -c core.compression=1"
    $git init -q
    $git config gc.auto 0
    ends 0 "$hooks/install-hooks -R ."
    $git add -A
    $git commit -qm first
    $git repack -adq --window=0 --depth=0
    $git config --unset core.worktree
    $git config user.name one
    $git config user.email one@here
    ends 0 "$hooks/install-hooks ."
    touch "$work/history"
}

# take_history: the repository of the sources comes into the tree.
take_history() {
    [ -e "$work/history" ] || make_history
    cp -R "$work/history.git" .git
}

# commit SUBJECT FILE..: these files, as they stand in the directory `next`, on top of the last commit.
commit() {
    subject=$1
    shift
    for file; do
        git update-index --cacheinfo "100644,$(git hash-object -w "$work/next/$file"),$file"
    done
    git commit -qm "$subject"
    git rev-parse HEAD >> "$work/commits"
}

# new_history FILE..: copies of these sources are in the directory `next`, and `commits` lists none.
new_history() {
    rm -rf "$work/next"
    for file; do
        mkdir -p "$work/next/${file%/*}"
        cp "$file" "$work/next/$file"
    done
    : > "$work/commits"
    take_history
}

# The history ends, and the tree goes into the cache as the first commit.
end_history() {
    git reset -q "$(git rev-list --max-parents=0 HEAD)"
    cd "$work"
    rm -rf cache cache.tar
    if [ "$way" = tar ]; then
        tar --posix -cf cache.tar linux
        CACHE=$work/cache.tar
    else
        cp -r linux cache
        CACHE=$work/cache
    fi
    rm -rf linux
}

# The block of docs/kbuild.md for CI. In a cache that drops times the tree is copied in and out.
ci_block() {
    awk '/^#/ && !inside { here = $0 ~ /^##* In CI$/ } here && inside && !/^```/ { print }
        /^```/ { inside = !inside && $0 == "```sh" }' "$root"/docs/*.md > "$work/block"
    [ "$way" = tar ] || sed -i 's/^tar -xf $CACHE \(.*\)/cp -r $CACHE linux \1/;
        s/^cd \.\. .. tar --posix -cf $CACHE linux.*/cd .. \&\& rm -rf $CACHE \&\& cp -r linux $CACHE/' "$work/block"
    [ "$(grep -c CACHE "$work/block")" = 2 ] || fail "$label: another block: $(cat "$work/block")"
}

# make_is_cancelled: make is killed with all its children where it compiles a third file.
make_is_cancelled() {
    rm -f "$work/group" "$work/group.ended"
    : > "$work/cancelled.log"
    GROUP=$work/group setsid sh -c 'echo $$ > "$GROUP"; make -j2; : > "$GROUP.ended"' > "$work/cancelled.log" 2>&1 &
    until [ -e "$work/group.ended" ] || [ "$(grep -c '^  CC ' "$work/cancelled.log")" -ge 3 ]; do
        sleep 0.1
    done
    kill -s KILL -- "-$(cat "$work/group")" 2> "$work/killed" || [ -e "$work/group.ended" ] ||
        fail "$label: make can't be killed: $(cat "$work/killed")"
    wait "$!" 2> "$work/killed" || :
    cat "$work/cancelled.log"
}

# job NUMBER KIND: the block as it stands, but for what becomes of its make. `counts` has what impact says, and what make
# compiles.
job() {
    label="$story: job $1, $2"
    COMMIT=$(sed -n "$1p" "$work/commits")
    counts=
    while IFS= read -r line <&3; do
        job_line "$2" "$line" 3<&-
    done 3< "$work/block"
}

job_line() {
    line=$2
    case $1:$line in
    part:make\ -j*) line='make -j$(nproc) kernel/ fs/fat/cache.o' ;;
    cancelled:make\ -j*) line=make_is_cancelled ;;
    good:*cd\ ..*) same_as_clean ;;
    esac
    status=0
    eval "$line" > "$work/log" 2>&1 || status=$?
    case $1:$status:$2 in
    *:0:* | failing:2:make\ -j* | failing:*stale* | cancelled:*stale* | part:*stale*) ;;
    *) fail "$label: status $status of '$line': $(tail -n 5 "$work/log")" ;;
    esac
    case $2 in
    *restore*) counts="$(head -n 1 "$work/log" | sed 's/:.*//')" ;;
    *impact*) counts="$counts; impact $(sed -n '1s/ of .*//p' "$work/log")" ;;
    make\ -j*) counts="$counts, compiled $(compiled | wc -l)" ;;
    esac
}

# A commit changes two sources and breaks a third, and the next one repairs that; with a cache that keeps times, and with one
# that doesn't.
ci_after_a_failure() {
    for way in tar cp; do
        story="a commit that fails and its repair, cached by $way"
        begin "$story"
        ci_block
        WANTED_CONFIG=$work/config
        new_history lib/crc7.c lib/crc4.c fs/fat/cache.c
        echo 'int changed_here_crc7 = 1;' >> "$work/next/lib/crc7.c"
        echo 'int changed_here_cache = 1;' >> "$work/next/fs/fat/cache.c"
        echo '#error' >> "$work/next/lib/crc4.c"
        commit breaks lib/crc7.c lib/crc4.c fs/fat/cache.c
        sed -i '$d' "$work/next/lib/crc4.c"
        echo 'int changed_here_crc4 = 1;' >> "$work/next/lib/crc4.c"
        commit repairs lib/crc4.c
        changed='lib/crc7.c lib/crc4.c fs/fat/cache.c'
        end_history
        job 1 failing
        before=$counts
        rm -rf linux
        job 2 good
        cd linux
        grep -q changed_here_crc7 System.map || fail "$story: a change is not in vmlinux"
        nm fs/fat/fat.ko | grep -q changed_here_cache || fail "$story: the change is not in fat.ko"
        nm lib/crc4.ko | grep -q changed_here_crc4 || fail "$story: the change is not in crc4.ko"
        say "$story: the job that fails: $before; the next one: $counts; all changes are in"
        cd "$work"
    done
}

# What is built in goes, with .config in the kernel and without; and all back.
built_in_goes() {
    begin 'an option that was built in'
    configure '--disable CRC7'
    ends 1 "make syncconfig && $hooks/stale --make -j\$(nproc)"
    says 'vmlinux stale made-of '
    named=$(tail -n 1 "$work/log")
    make_all
    ! grep -q crc7_be System.map || fail "$label: crc7_be is there"
    same_as_clean
    say "$label is switched off: before make ${named%%; not*}; after it $asked"
    label='.config in the kernel'
    configure '--enable IKCONFIG'
    make_all
    same_as_clean
    configure '--enable CRC7'
    ends 1 "make syncconfig && $hooks/stale --make -j\$(nproc)"
    says 'kernel/configs.o stale made-of kernel/config_data'
    make_all
    grep -q '^kernel/configs\.o$' "$work/compiled" || fail "$label: kernel/configs.o isn't compiled"
    same_as_clean
    say "$label: kernel/configs.o is named, and compiled; $asked"
    label='the same option, with .config in the kernel'
    configure '--disable CRC7'
    ends 1 "make syncconfig && $hooks/stale --make -j\$(nproc)"
    says 'vmlinux stale made-of '
    says 'kernel/configs.o stale made-of kernel/config_data'
    named=$(tail -n 1 "$work/log")
    make_all
    ! grep -q crc7_be System.map || fail "$label: crc7_be is there"
    same_as_clean
    say "$label is switched off: before make ${named%%; not*}; after it $asked"
    label='all taken back'
    cp "$work/config" .config
    make_all
    same_as_clean
    say "$label: the products of the first build; $asked"
}

can_mount() {
    [ -n "${MAY_MOUNT:-}" ] || { say "left out: $1, since nothing can be mounted here"; return 1; }
}

# frozen DIRECTORY COMMAND: while it can't be written.
frozen() {
    mount --bind "$1" "$1"
    mount -o remount,bind,ro "$1"
    status=0
    (cd "$PWD" && eval "$2") > "$work/log" 2>&1 || status=$?
    umount "$1"
}

# The kernel's own tool empties a stamp, and fails before it writes auto.conf. Then the hooks go on, with the old .config or the
# new one.
emptied_stamp() {
    can_mount 'a stamp that was emptied' || return 0
    for way in old new; do
        begin "a stamp that was emptied, and the $way .config"
        ends 0 "$hooks/install-hooks -R ."
        configure '--set-val FAT_DEFAULT_CODEPAGE 850'
        frozen include/generated 'make syncconfig'
        [ "$status" != 0 ] || fail "$label: the kernel's own tool ended well: $(tail -n 3 "$work/log")"
        [ ! -s include/config/FAT_DEFAULT_CODEPAGE ] || fail "$label: it emptied no stamp"
        ends 0 "$hooks/install-hooks ."
        [ "$way" = new ] || cp "$work/config" .config
        ends 0 'make -j$(nproc)'
        repaired=$(sed -n 's/.*another tool was at work in this tree\. //p' "$work/log")
        [ -n "$repaired" ] || fail "$label: nothing is repaired"
        compiled > "$work/compiled"
        nothing_left
        same_as_clean
        [ "$(grep -c 'fs/fat/inode.o' "$work/compiled")" = 1 ] || fail "$label: fs/fat/inode.o isn't compiled"
        say "$label: $repaired; make compiled $(tr '\n' ' ' < "$work/compiled"); fs/fat/inode.o is right; $asked"
    done
}

# After a first build the questions answer, and the block for CI goes on under `sh -e`.
first_questions() {
    begin 'the questions after a first build'
    first_line=$(head -n 1 tools/objtool/.fixdep.o.cmd 2> "$work/log") || first_line='it is not there'
    ends 0 "$hooks/stale"
    fresh=$(tail -n 1 "$work/log")
    ends 0 "$hooks/impact"
    impact=$(head -n 1 "$work/log")
    ends 0 "$hooks/users PRINTK"
    users=$(tail -n 1 "$work/log")
    ends 0 "$hooks/cost --top 1"
    cost=$(grep -v '^kbuild/cost' "$work/log")
    say "$label: ${fresh%%;*}; impact: $impact; users PRINTK: $users; cost: $cost; tools/objtool/.fixdep.o.cmd begins:" \
        "$first_line"
    way=tar
    label='the block for CI under sh -e'
    ci_block
    new_history lib/crc7.c
    echo 'int changed_here_crc7 = 1;' >> "$work/next/lib/crc7.c"
    commit changes lib/crc7.c
    changed=lib/crc7.c
    end_history
    cd "$work"
    hooks=$hooks CACHE=$CACHE COMMIT=$(cat "$work/commits") WANTED_CONFIG=$work/config sh -e "$work/block" > "$work/log" 2>&1 ||
        fail "$label: status $?: $(tail -n 5 "$work/log")"
    compiled > "$work/compiled"
    cd linux
    same_as_clean
    say "$label: it comes to its end; make compiled $(tr '\n' ' ' < "$work/compiled")"
}

# `confstamp stale` is asked without an end while make synchronises and compiles.
asked_at_work() {
    begin 'a question at work beside make'
    "$hooks/objects" > "$work/asked.list"
    : > "$work/asking"
    : > "$work/asked.times"
    while [ -e "$work/asking" ]; do
        confstamp stale --from "$work/asked.list" > "$work/asked.log" 2>&1 || :
        echo asked >> "$work/asked.times"
    done &
    asking=$!
    for size in 14 15 16; do
        configure "--set-val LOG_BUF_SHIFT $size"
        ends 0 'make syncconfig'
        ends 0 'make -j$(nproc) kernel/printk/'
    done
    configure '--enable DEBUG_LIST --set-val LOG_BUF_SHIFT 14'
    ends 0 'make -j$(nproc)'
    compiled > "$work/compiled"
    rm "$work/asking"
    wait "$asking"
    nothing_left
    same_as_clean
    say "$label: asked $(how_many "$work/asked.times") times beside four synchronisations and four makes, of which the last" \
        "one compiled $(how_many "$work/compiled"); $asked"
}

numbers_lost() {
    begin 'auto.conf was removed'
    rm include/config/auto.conf
    make_all
    same_as_clean
    say "$label: make compiled $(how_many "$work/compiled"); $asked"
    begin 'auto.conf and the one that is kept were removed'
    configure '--set-val LOG_BUF_SHIFT 14'
    make_all
    rm include/config/auto.conf include/config/confstamp.auto
    ends 0 'make -j$(nproc)'
    grep -q 'numbers were lost' "$work/log" || fail "$label: nothing is said of it"
    compiled > "$work/compiled"
    ends 0 "$hooks/stale"
    nothing_left
    same_as_clean
    say "$label: one make compiled $(how_many "$work/compiled"); $asked"
    begin 'a change that was built without confstamp in PATH'
    configure '--set-val LOG_BUF_SHIFT 14'
    ends 0 'PATH=$path_before make -j$(nproc)'
    says 'no confstamp with its hooks in PATH'
    compiled > "$work/others"
    [ "$(log_buffer)" = 16384 ] || fail "$label: the kernel's own tools leave __log_buf of $(log_buffer) bytes"
    configure '--set-val LOG_BUF_SHIFT 17'
    make_all
    same_as_clean
    say "$label: without it make compiled $(how_many "$work/others"), and then, taken back, $(how_many "$work/compiled");" \
        "$asked"
    [ "$(how_many "$work/compiled")" -le $((2 * $(how_many "$work/others") + 10)) ] ||
        fail "$label: it costs more than the change"
}

# two_makes WORD..: both at once; `statuses` are theirs.
two_makes() {
    make "$@" > "$work/one.log" 2>&1 &
    one=$!
    second=0
    make "$@" > "$work/two.log" 2>&1 || second=$?
    first=0
    wait "$one" || first=$?
    statuses="$first $second"
    cat "$work/one.log" "$work/two.log" >> "$work/both.log"
}

# rounds WORD..: two makes after each of four changes. `well` is how often both ended well, and `torn` how often vmlinux wasn't right
# then; a further make, which links it anew, is right each time.
rounds() {
    well=0
    torn=0
    : > "$work/both.log"
    for size in 14 15 14 15; do
        configure "--set-val LOG_BUF_SHIFT $size"
        two_makes "$@"
        if [ "$statuses" = '0 0' ]; then
            well=$((well + 1))
            clean_build
            [ "$*" = syncconfig ] || grep ' \./vmlinux$' "$sums" | sha256sum -c --status || torn=$((torn + 1))
        fi
        [ "$*" = syncconfig ] || rm -f vmlinux.o vmlinux
        ends 0 'make -j$(nproc)'
        same_as_clean
    done
}

# Two synchronisations at once end well. Of two makes of all both may compile one object at once, with hooks and without. Then
# one may lose its dependency file to the other. Or it links vmlinux of a vmlinux.o that the other one hasn't gone over by objtool
# yet, without an error, and no make would link that again: so what is linked goes before the further make.
two_makes_at_once() {
    begin 'two makes at once'
    rounds syncconfig
    [ "$well" = 4 ] || fail "$label: make syncconfig: $(grep -m 3 -e '^kbuild/' -e ' \*\*\* ' "$work/both.log")"
    rounds -j2
    nothing_left
    with=$well
    torn_with=$torn
    why=$(grep -h -e 'rror' "$work/both.log" | grep -v -e ' \*\*\* ' | sed 's/.*: //' | sort -u | head -n 3 | tr '\n' ';')
    ! grep '^kbuild/syncconfig' "$work/both.log" | grep -v waiting || fail "$label: a synchronisation told that"
    ends 0 "$hooks/install-hooks -R ."
    ends 0 'make -j$(nproc)'
    rounds -j2
    say "$label: make syncconfig ended well in both in 4 of 4 rounds; of all, in $with of 4${why:+ ($why)}, by the kernel's" \
        "own tools alone in $well of 4; vmlinux was another one in $torn_with and $torn of these; linked anew all was right; $asked"
}

# With little room a synchronisation ends well or not. .config stays whole, as it was or as the kernel's tool completes it.
nearly_full_disk() {
    can_mount 'a disk that is nearly full' || return 0
    begin 'a disk that is nearly full'
    configure '--set-val LOG_BUF_SHIFT 14'
    cp .config "$work/config-14"
    clean_build
    cd "$work"
    rm -rf linux
    mkdir linux
    mount -t tmpfs -o "size=$(($(du -sm base.tar | cut -f 1) * 3 / 2 + 100))m" tmpfs linux
    tar -xf base.tar
    cd linux
    make_all
    ended=
    free=$DISK_FROM
    while [ "$free" -le "$DISK_TO" ]; do
        label="a disk with $free KiB free"
        one_full_disk "$work/config$([ $((free / DISK_STEP % 2)) = 1 ] && echo -14)"
        free=$((free + DISK_STEP))
    done
    cd "$work"
    umount linux
    label='a disk that is nearly full'
    say "$label, $DISK_FROM to $DISK_TO KiB by $DISK_STEP: .config stays whole, and the next make is right; make syncconfig ended well with" \
        "${ended:-none of these}"
}
DISK_FROM=${DISK_FROM:-8} DISK_TO=${DISK_TO:-200} DISK_STEP=${DISK_STEP:-8}

# one_full_disk CONFIG: it is to be taken over, with a value that the kernel's tool puts right in .config.
one_full_disk() {
    sed 's/^CONFIG_GCC_VERSION=.*/CONFIG_GCC_VERSION=1/' "$1" > .config
    cp .config "$work/wanted"
    dd if=/dev/zero of=fill bs=1024 2> "$work/log" || :
    truncate -s "-${free}K" fill
    status=0
    make syncconfig > "$work/log" 2>&1 || status=$?
    cmp -s .config "$work/wanted" || cmp -s .config "$1" ||
        fail "$label: .config has $(wc -c < .config) bytes of $(wc -c < "$work/wanted")"
    [ "$status" != 0 ] || ended="$ended $free"
    rm fill
    make_all
    cmp -s .config "$1" || fail "$label: .config isn't completed by the next make"
    same_as_clean
}

# by_itself: what make compiled, but for what follows a link.
by_itself() {
    grep -v -e '\.mod\.o$' -e '^\.vmlinux\.export\.o$' -e '^\.module-common\.o$' -e '^arch/x86/boot/' -e '^init/version' \
        -e '^\.tmp_' "$work/compiled" || :
}

# impact counts what make then compiles, where a y becomes m and back.
other_kind() {
    begin 'a y that becomes m'
    for kind in --module --enable; do
        configure "$kind CRC7 $kind CRC4"
        ends 1 "$hooks/impact"
        counted=$(sed -n '1s/ of .*//p' "$work/log")
        by_kind=$(grep -E '=[ym]$' "$work/log" | tr '\n' ' ')
        make_all
        by_itself > "$work/own"
        same_as_clean
        say "CRC7 and CRC4 by $kind: impact counted $counted, by kind:$by_kind; make compiled $(how_many "$work/own"):" \
            "$(tr '\n' ' ' < "$work/own"); $asked"
        [ "$counted" = "$(how_many "$work/own")" ] ||
            fail "$label: impact counted $counted, and make compiled $(how_many "$work/own")"
    done
}

# What can't be done or said is no answer.
no_answers() {
    begin 'a Kconfig file that is gone'
    mv lib/Kconfig.debug "$work/Kconfig.debug"
    ends 2 "$hooks/impact"
    word=$(cat "$work/log")
    mv "$work/Kconfig.debug" lib/Kconfig.debug
    say "$label: impact ends with 2: $word"
    can_mount 'restore where nothing can be written' || return 0
    label='restore where nothing can be written'
    configure '--set-val LOG_BUF_SHIFT 14'
    ends 0 'make syncconfig'
    frozen "$work/linux" "$hooks/restore"
    [ "$status" = 2 ] || fail "$label: status $status: $(cat "$work/log")"
    say "$label: status 2: $(tail -n 1 "$work/log")"
    ends 0 "$hooks/restore"
    make_all
    same_as_clean
}

# ahead: all objects get mtimes two hours in the future, and a symbol changes that many of them mention.
ahead() {
    find . -name '*.o' -exec touch -d '+2 hours' {} +
    ends 0 "${source:-.}/scripts/config --enable DEBUG_LIST && make olddefconfig"
    ends 1 "$hooks/impact"
    counted=$(sed -n '1s/ of .*//p' "$work/log")
    if [ "$way" = synchronised ]; then
        ends 0 'make syncconfig'
        "$hooks/stale" > "$work/log" 2>&1 || [ "$?" = 1 ] || fail "$label: $(tail -n 3 "$work/log")"
        sed -n 's/ stale .*//p' "$work/log" | sort > "$work/named"
        [ "$(how_many "$work/named")" = "$counted" ] ||
            fail "$label: impact counted $counted, and stale named $(how_many "$work/named")"
    fi
    ends 0 'make -j$(nproc)'
    compiled > "$work/compiled"
    "$hooks/stale" > "$work/log" 2>&1 || [ "$?" = 1 ] || fail "$label: $(tail -n 3 "$work/log")"
    grep -E ' stale [A-Z0-9_]+$' "$work/log" > "$work/left" || :
    if [ "$way" = synchronised ]; then
        comm -23 "$work/named" "$work/compiled" > "$work/missing"
        [ "$(how_many "$work/missing")" = "$(how_many "$work/left")" ] ||
            fail "$label: not compiled: $(head -n 3 "$work/missing")"
    fi
    nothing_left
    same_as_clean
    say "$label: impact counted $counted; make compiled $(how_many "$work/compiled") for whatever reason; left the build:" \
        "$(how_many "$work/left"); $asked"
}

clock_ahead() {
    for way in not-synchronised synchronised; do
        begin "objects two hours ahead, $way before make"
        ahead
    done
}

# The same in a build directory of its own.
clock_ahead_beside() {
    way=synchronised
    changed=
    cd "$work"
    rm -rf linux out
    tar -xf sources.tar
    cd linux
    ends 0 "$hooks/install-hooks ."
    out=$work/out
    mkdir "$out"
    cp "$work/config" "$out/.config"
    label='objects two hours ahead, with O='
    ends 0 "make O=$out -j\$(nproc)"
    cd "$out"
    source=$work/linux
    ahead
    cd "$work"
    rm -rf "$out"
    source=
}

commit_sources='lib/crc7.c lib/crc4.c lib/crc16.c fs/fat/cache.c fs/fat/dir.c fs/fat/file.c kernel/panic.c lib/string.c
    drivers/base/init.c mm/util.c lib/cmdline.c fs/nls/nls_base.c'

# commit_of NUMBER KIND: what it changes goes into objects. One that fails has a source that doesn't compile.
commit_of() {
    for step in 1 3 7; do
        file=$(echo "$commit_sources" | tr -s ' \n' '\n\n' | sed -n "$(($1 * step % 12 + 1))p")
        sed -i '/^int commit_in_/d' "$work/next/$file"
        echo "int commit_in_$(basename "$file" .c) = $1;" >> "$work/next/$file"
    done
    sed -i '/^an error/d' "$work/next/lib/string.c"
    [ "$2" != failing ] || echo 'an error' >> "$work/next/lib/string.c"
    # shellcheck disable=SC2086 # the list is words
    commit "$1 $2" $commit_sources
}

# Twenty jobs with a cache between all, good, failing, cancelled and partial ones. Those before FIRST_JOB are left out, so that one
# finds the tree of the first build in the cache.
twenty_jobs() {
    story='twenty jobs'
    way=tar
    begin "$story"
    ci_block
    kinds='good failing good part failing cancelled good cancelled good part part good failing failing good cancelled failing
        part good good'
    # shellcheck disable=SC2086
    new_history $commit_sources
    number=0
    for kind in $kinds; do
        number=$((number + 1))
        commit_of "$number" "$kind"
    done
    changed=$commit_sources
    end_history
    number=0
    WANTED_CONFIG=$work/wanted
    for kind in $kinds; do
        number=$((number + 1))
        [ "$number" -ge "${FIRST_JOB:-1}" ] || continue
        rm -rf "$work/linux"
        cd "$work"
        sed "s/^CONFIG_LOG_BUF_SHIFT=.*/CONFIG_LOG_BUF_SHIFT=$((number % 4 + 13))/" "$work/config" > "$WANTED_CONFIG"
        job "$number" "$kind"
        say "  job $number, $kind: $counts"
    done
    say "$story: after each of the $(echo "$kinds" | tr -s ' \n' '\n\n' | tail -n "+${FIRST_JOB:-1}" | grep -c good) good ones" \
        'every product is that of a clean build'
}

# What ended with status 0 and a wrong product once. Each story ends with the same sources and the same .config, so one clean build is
# compared with all of them. No object is compiled twice by one make.
one_source_more() {
    echo 'const int params_of_log = CONFIG_LOG_BUF_SHIFT;' >> kernel/params.c
    changed=kernel/params.c
}

flipped_and_right() {
    configure '--set-val LOG_BUF_SHIFT 15 --enable FAT_DEFAULT_UTF8'
    ends 0 'make -j$(nproc)'
    compiled > "$work/compiled"
    [ -z "$(uniq -d "$work/compiled")" ] || fail "$label: compiled twice: $(uniq -d "$work/compiled" | head -n 3)"
    [ "$(log_buffer)" = 32768 ] || fail "$label: __log_buf has $(log_buffer) bytes"
    same_as_clean
}

killed_at_a_record() {
    begin 'a make that is killed between the compiler and the record'
    one_source_more
    printf '%s\n' '#!/bin/sh' 'case "$*" in "record "*params.o*) kill -KILL 0 ;; esac' "exec '$prefix/bin/confstamp' \"\$@\"" \
        > "$work/killer"
    chmod +x "$work/killer"
    ! setsid -w make CONFSTAMP="$work/killer" kernel/params.o > "$work/log" 2>&1 || fail "$label: make was not killed"
    make_all
    grep -qx kernel/params.o "$work/compiled" || fail "$label: kernel/params.o is left"
    flipped_and_right
    grep -qx kernel/params.o "$work/compiled" || fail "$label: kernel/params.o is left, and it names the symbol"
    nothing_left
    say "$label: the next make compiled $(how_many "$work/compiled"); $asked"
}

stamps_lost() {
    begin 'include/config was removed, and symbols changed at once'
    one_source_more
    make_all
    rm -r include/config
    flipped_and_right
    nothing_left
    say "$label: make compiled $(how_many "$work/compiled"); $asked"
}

# The symbol of the damaged stamp is the one of printk.o that the fewest objects mention.
nobody_can_say() {
    begin 'a damaged stamp, and an object by the kernel'\''s own fixdep, two hours ahead'
    one_source_more
    ends 0 "$hooks/install-hooks -R ."
    ends 0 'make -j$(nproc)'
    ends 0 "$hooks/install-hooks ."
    ends 0 "$hooks/cost --all"
    damaged=$(sed -n 's,^.*(wildcard include/config/\([A-Z0-9_]*\)) .$,\1,p' kernel/printk/.printk.o.cmd | while read -r name; do
        [ ! -s "include/config/$name" ] || echo "$name"
    done | awk 'FILENAME != "-" { order[$1] = FNR; next } { print order[$1], $1 }' "$work/log" - | sort -rn | sed -n '1s/.* //p')
    echo x > "include/config/$damaged"
    touch -d '+2 hours' kernel/printk/printk.o kernel/params.o
    flipped_and_right
    grep -qx kernel/params.o "$work/compiled" && grep -qx kernel/printk/printk.o "$work/compiled" ||
        fail "$label: one of them is left"
    say "$label: $damaged was damaged; make compiled $(how_many "$work/compiled"), each object is right"
}

errors_passed_over() {
    begin 'make -i, and a cache without times'
    one_source_more
    echo '#error this does not compile' >> kernel/params.c
    make -i -j"$(nproc)" > "$work/log" 2>&1 || :
    [ "$(sed 's/ .*//' include/config/confstamp.make)" = begun ] || fail "$label: it counts as a make of all"
    through_a_cache --touch
    ends 0 "$hooks/restore"
    says 'the last make did not end well'
    ends 2 'make -j$(nproc)'
    sed -i '$d' kernel/params.c
    flipped_and_right
    nothing_left
    say "$label: make compiled $(how_many "$work/compiled") after it had failed; $asked"
}

# The directory is switched off as the tree is listed, so only M= knows of it. The kernel that M= finds lacks what FAT selects, which
# modpost would call an error.
driver_by_M() {
    begin 'a directory that make M= builds first, two hours ahead'
    one_source_more
    configure '--disable VFAT_FS --disable FAT_FS'
    make_all
    find fs/fat \( -name '*.o' -o -name '*.ko' -o -name '*.mod*' -o -name '.*.cmd' -o -name '*.a' \) -exec rm -f {} +
    rm include/config/confstamp.records
    ends 0 'make syncconfig'
    configure '--module FAT_FS --module VFAT_FS'
    ends 0 'make syncconfig && make modules_prepare && make M=fs/fat KBUILD_MODPOST_WARN=1 modules'
    find fs/fat -name '*.o' -exec touch -d '+2 hours' {} +
    configure '--set-val LOG_BUF_SHIFT 15 --enable FAT_DEFAULT_UTF8'
    ends 0 'make syncconfig'
    says 'objects stale'
    counted=$(sed -n 's/.*changed, //p' "$work/log")
    flipped_and_right
    grep -q fs/fat/ "$work/compiled" || fail "$label: fs/fat is left"
    nothing_left
    say "$label: $counted; make compiled $(how_many "$work/compiled"), of fs/fat $(grep -c fs/fat/ "$work/compiled"); $asked"
}
