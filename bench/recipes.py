#!/usr/bin/env python3
# SPDX-License-Identifier: Apache-2.0 OR MIT
"""The processor time of the recipes of objects, for bench/compile: each is what make handed to a shell, and all that it starts.

    bench/recipes.py ROUNDS SMALL RAW NAME=TRACE,TREE..

TRACE is what `strace -f -e trace=execve -s 200000` wrote of a make in TREE. The recipes of each object run by turns, ROUNDS times
and once before that isn't counted, in their trees, and each leaves what it makes. objtool is left out. RAW gets lines
`CASE-NAME,OBJECT,NANOSECONDS`: of each object the median of the rounds, where CASE is `all`, and `small` for the SMALL objects that
name the fewest files.
It prints how many objects that were. Status: 0, or 2 where a recipe fails or there is none.
"""
import os
import re
import statistics
import sys

# A recipe that compiles: it tells so first.
RECIPE = re.compile(r"""\d+ +execve\("[^"]*/(?:ba|da)?sh", \["[^"]*", "-e?c", "(set -e;  ?echo '  (?:CC|AS) (?:\[M\] )? *(\S+)'.*)"\], 0x""")
# A command by itself: it begins a line of shell, or stands behind `;`.
OBJTOOL = re.compile(r"((?:^|;) *)(?:\./)?tools/objtool/objtool ")


def recipes(trace):
    """The text of each object's recipe."""
    found = {}
    with open(trace, encoding="latin-1") as lines:
        for line in lines:
            match = RECIPE.match(line)
            if match:
                text = match[1].encode("latin-1").decode("unicode_escape")
                found[match[2]] = OBJTOOL.sub(r"\1: ", text)
    return found


def processor_time(recipe, tree, nowhere):
    """Nanoseconds of processor time of the shell and of all that it waited for."""
    os.chdir(tree)
    to_nowhere = [(os.POSIX_SPAWN_DUP2, nowhere, 1), (os.POSIX_SPAWN_DUP2, nowhere, 0)]
    child = os.posix_spawn("/bin/sh", ["/bin/sh", "-c", recipe], os.environ, file_actions=to_nowhere)
    _, status, used = os.wait4(child, 0)
    if status:
        sys.exit(f"bench/recipes.py: status {status} in {tree}: {recipe[:200]}")
    return round((used.ru_utime + used.ru_stime) * 1e9)


def main():
    rounds, small, raw, *variants = sys.argv[1:]
    rounds, small = int(rounds), int(small)
    trees, texts = {}, {}
    for variant in variants:
        name, rest = variant.split("=", 1)
        trace, trees[name] = rest.split(",")
        texts[name] = recipes(trace)
    objects = sorted(set.intersection(*map(set, texts.values())))
    if not objects:
        sys.exit(2)
    store = os.environ["STORE"]
    sizes = {it: os.path.getsize(f"{store}/{it}.d") for it in objects if os.path.exists(f"{store}/{it}.d")}
    objects = [it for it in objects if it in sizes]
    smallest = set(sorted(objects, key=lambda it: (sizes[it], it))[:small])
    nowhere = os.open("/dev/null", os.O_RDWR)
    times = {name: {it: [] for it in objects} for name in trees}
    names = list(trees)
    for turn in range(rounds + 1):
        for place, it in enumerate(objects):
            for step in range(len(names)):
                name = names[(step + place + turn) % len(names)]
                spent = processor_time(texts[name][it], trees[name], nowhere)
                if turn:
                    times[name][it].append(spent)
    with open(raw, "a", encoding="ascii") as out:
        for name in names:
            for it in objects:
                median = round(statistics.median(times[name][it]))
                print(f"all-{name},{it},{median}", file=out)
                if it in smallest:
                    print(f"small-{name},{it},{median}", file=out)
    print(len(objects))


if __name__ == "__main__":
    main()
