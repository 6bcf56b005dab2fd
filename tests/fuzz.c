/* SPDX-License-Identifier: Apache-2.0 OR MIT */
/* Runs the program on trees that are made at random, and compares what it prints, its status and every file of the tree
   with what model.c says: answers by the definitions, a refusal leaves the tree, what was written reads back.

       fuzz PROGRAM SEED CASES [SECONDS]

   A case is a tree and some commands over it: up to four at random, or the story of a build, so that objects are recorded
   and symbols change after their records. Half of the cases are in the words of Linux, the others in those of U-Boot or BusyBox,
   and at times a command goes by those of another project. The same seed makes the same cases. The directory is the current one,
   and is emptied.
   At the first difference the case is left there and printed, status 1. */
#define _GNU_SOURCE
#include "program.h"

#include <errno.h>
#include <fcntl.h>
#include <ftw.h>
#include <stdio.h>
#include <stdlib.h>
#include <string.h>
#include <sys/stat.h>
#include <time.h>
#include <unistd.h>

/* Chance: a generator of 64 bits (splitmix), so that a case depends on its seed alone. */

static uint64_t state;

static uint64_t next_number(void)
{
    uint64_t z = state += 0x9e3779b97f4a7c15;
    z = (z ^ (z >> 30)) * 0xbf58476d1ce4e5b9;
    z = (z ^ (z >> 27)) * 0x94d049bb133111eb;
    return z ^ (z >> 31);
}

static size_t below(size_t limit)
{
    return (size_t)(next_number() % limit);
}

static bool one_in(size_t count)
{
    return below(count) == 0;
}

/* Whether the case is the story of a build. */
static bool is_build;

/* One in so many; in the story of a build in eight times as many, so that most of it goes well. */
static bool rarely(size_t one_of)
{
    return one_in(is_build ? 8 * one_of : one_of);
}

#define PICK(table) (table)[below(sizeof(table) / sizeof *(table))]

/* The project of the case, or NULL for Linux where nothing is said. */
static const char *project;

static const char *const projects[] = {"u-boot", "busybox", "coreboot", "linux"};

static bool is_of(const char *name)
{
    return project && strcmp(project, name) == 0;
}

/* Texts made at random: mostly what a reader takes, with some faults. */

static const char *const names[] = {"A", "B", "C", "D", "E_1", "x86", "CONFIG_A", "A_MODULE_B", "MODULE", "0", "S", "H", "NOT_A", "SPL_A", "B_MODULE"};
static const char *const kinds[] = {"bool", "tristate", "string", "int", "hex", "raw", "flag"};

/* How many of the names are declared: the last one may be in BusyBox alone. */
static size_t declared_names(void)
{
    return sizeof names / sizeof *names - !is_of("busybox");
}

static const char *name(void)
{
    static char odd[160];
    if (!one_in(60))
        return PICK(names);
    size_t length = one_in(2) ? 128 + below(2) : below(3);
    memset(odd, 'L', length);
    strcpy(odd + length, one_in(3) ? "_MODULE" : one_in(3) ? "-" : "");
    return odd;
}

static const char *line_end(void)
{
    return one_in(30) ? "\r\n" : "\n";
}

static const char *value(void)
{
    static const char *const values[] = {
        "y", "m", "n", "y", "m", "n", "\"\"", "\"text\"", "\"a\\\"b\\\\c\"", "\"n\"", "\"a\\n\"", "\"a", "\"a\"b", "0", "-12", "-0",
        "007", "42", "0x1f", "1f", "0X1F", "0x", "", "-", "+1", "\"\\\"", "y ", "99999999999999999999999", "\"\303\244 $# \\\\\"",
    };
    return PICK(values);
}

static const char *value_of_kind(size_t kind)
{
    static const char *const fitting[][4] = {
        {"y", "n", "y", "y"}, {"y", "m", "n", "m"}, {"\"\"", "\"y\"", "\"n\"", "\"a\\\"b\\\\\""}, {"0", "-1", "77", "10"}, {"0x1f", "1F", "0", "10"},
    };
    return rarely(30) ? value() : fitting[kind][below(4)];
}

/* Changes a byte, cuts off the end, or doubles a part. */
static Bytes damaged(Bytes text)
{
    static const char bytes[] = {'\0', '\n', '\r', '"', '\\', '#', '\377', ' ', '\t', ':', '=', '$', '_', 'A', '/', '.'};
    Text made = {0};
    size_t place = below(text.length + 1);
    add(&made, (Bytes){text.at, place});
    switch (below(4)) {
    case 0:
        break;
    case 1:
        add(&made, (Bytes){&PICK(bytes), 1});
        if (place < text.length)
            add(&made, (Bytes){text.at + place + 1, text.length - place - 1});
        break;
    case 2:
        add(&made, (Bytes){&PICK(bytes), 1});
        add(&made, (Bytes){text.at + place, text.length - place});
        break;
    default:
        add(&made, (Bytes){text.at + (place > 9 ? place - 9 : 0), text.length - (place > 9 ? place - 9 : 0)});
    }
    return of_text(&made);
}

static Bytes perhaps_damaged(Text *text, size_t one_of)
{
    Bytes made = of_text(text);
    while (rarely(one_of))
        made = damaged(made);
    return made;
}

/* The kinds that the last Kconfig gave the names, so that most values of a .config fit. */
static size_t kind_of_name[sizeof names / sizeof *names];

static Bytes made_kconfig(void)
{
    static const char *const comments[] = {"# a comment", "", "   ", "\t# config B"};
    static const char *const titles[] = {"Demo", "Linux/x86 6.1.0 Kernel Configuration", "*/", "a\\b", ""};
    Text text = {0};
    if (one_in(2))
        add_text(&text, "mainmenu \"%s\"%s", titles[one_in(12) ? below(5) : below(2)], line_end());
    for (size_t i = 0; i < declared_names(); i++) {
        if (one_in(4))
            continue;
        if (one_in(12))
            add_text(&text, "%s%s", PICK(comments), line_end());
        if (one_in(3))
            kind_of_name[i] = below(5);
        size_t kind = kind_of_name[i];
        add_text(&text, "%s%s%s%s", one_in(5) ? "menuconfig" : "config", one_in(9) ? "\t" : " ", rarely(200) ? name() : names[i], line_end());
        if (kind < 2 && one_in(6))
            add_text(&text, "\tdef_%s %c", kinds[kind], "ymn"[below(3)]);
        else
            add_text(&text, "%s%s%s", one_in(8) ? "" : "\t", kinds[kind], one_in(6) ? " \"a \\\"prompt\\\"\"" : "");
        add_text(&text, "%s", line_end());
    }
    return perhaps_damaged(&text, 14);
}

static Bytes made_dotconfig(void)
{
    Text text = {0};
    for (size_t count = below(14); count > 0; count--) {
        size_t which = below(declared_names());
        if (one_in(7))
            add_text(&text, "# CONFIG_%s is not set%s", names[which], line_end());
        else if (one_in(15))
            add_text(&text, "%s%s", one_in(3) ? "# a comment" : "", line_end());
        else if (rarely(15))
            add_text(&text, "CONFIG_%s=%s%s", name(), value(), line_end());
        else
            add_text(&text, "CONFIG_%s=%s%s", names[which], value_of_kind(kind_of_name[which]), line_end());
    }
    return perhaps_damaged(&text, 14);
}

static Bytes made_auto(void)
{
    static const char *const numbers[] = {"0", "1", "2", "3", "7", "18446744073709551615", "18446744073709551614", "01", "18446744073709551616", ""};
    Text text = {0};
    if (one_in(2))
        add_text(&text, "#\n# Automatically generated file; DO NOT EDIT.\n# Demo\n#\n");
    if (one_in(2))
        add_text(&text, "#typed%s", line_end());
    for (size_t count = below(8); count > 0; count--) {
        const char *entry = name();
        if (one_in(3))
            add_text(&text, "#type %s %s%s", one_in(20) ? name() : entry, kinds[one_in(20) ? below(7) : 2 + below(5)], line_end());
        add_text(&text, "CONFIG_%s=%s%s", entry, value(), line_end());
        if (one_in(30))
            add_text(&text, "#typed%s", line_end());
    }
    if (!one_in(5))
        add_text(&text, "#generation %s%s", numbers[one_in(8) ? below(10) : 1 + below(4)], line_end());
    return perhaps_damaged(&text, 10);
}

/* What conf writes of a name behind it, in auto.conf and in the header; the last five it would not write. */
static const char *const written_values[][2] = {
    {"y", " 1"}, {"m", "_MODULE 1"}, {"12", " 12"}, {"-3", " -3"}, {"0", " 0"}, {"y", " 1"}, {"0x1F", " 0x1F"}, {"0X1f", " 0X1f"}, {"1f", " 0x1f"},
    {"10", " 0x10"}, {"", " \"\""}, {"y", " \"y\""}, {"10", " \"10\""}, {"n", " \"n\""}, {"a b", " \"a b\""}, {"q\"\\", " \"q\\\"\\\\\""},
    {"\"a\\b\"", " \"a\\b\""}, {"\"q\"", " \"\\\"q\\\"\""}, {"\303\244", " \"\303\244\""}, {"", " "}, {"", " 0x"}, {"007", " 007"}, {"0x", " 0x"}, {"n", " 1"}, {"-0", " -0"},
    {"\"", " \""},
};

enum { WRITTEN_VALUES = sizeof written_values / sizeof *written_values };

/* A pair: a line in each for some names, in any order; seldom one is left out, is none, or lacks its end. */
static void put_written(Tree *tree)
{
    static const char *const titles[] = {"Demo", "Linux/x86 6.1.0 Kernel Configuration", "*/", "a\\b", ""};
    const char *title = titles[one_in(20) ? below(5) : below(2)], *star = one_in(3) ? "\n *" : "";
    static const char *const companions[] = {"A_MODULE", "B_MODULE", "S_MODULE", "A_MODULE_MODULE", "_MODULE"};
    bool is_taken[sizeof names / sizeof *names] = {false};
    Text entries = {0}, definitions = {0};
    add_text(&entries, "#\n# Automatically generated file; DO NOT EDIT.\n# %s\n#\n", title);
    add_text(&definitions, "/*%s\n * Automatically generated file; DO NOT EDIT.\n * %s%s\n */\n", star, title, star);
    for (size_t count = below(12); count > 0; count--) {
        size_t which = below(sizeof names / sizeof *names - 1), value = below(WRITTEN_VALUES - (rarely(40) ? 0 : 5));
        const char *entry = rarely(30) ? name() : names[which];
        if (is_taken[which] && !rarely(40))
            continue;
        is_taken[which] = true;
        if (one_in(10)) {
            entry = PICK(companions);
            value = rarely(30) ? value : 0;
        }
        if (!rarely(60))
            add_text(&entries, rarely(60) ? "# CONFIG_%s is not set\n" : "CONFIG_%s=%s\n", entry, written_values[value][0]);
        if (!rarely(60))
            add_text(&definitions, "#define CONFIG_%s%s\n", entry, written_values[value][1]);
    }
    entries.length -= rarely(60);
    definitions.length -= rarely(60);
    put(tree, bytes_of("conf.auto"), perhaps_damaged(&entries, 14));
    put(tree, bytes_of("conf.h"), perhaps_damaged(&definitions, 14));
}

/* Words of other projects, and what stands between them. */
static void add_words(Text *text)
{
    static const char *const fronts[] = {"ENABLE_", "IF_", "IF_NOT_", "USE_", "CONFIG_IS_ENABLED", "CONFIG_VAL", "CONFIG_IF_ENABLED_INT", "CONFIG"};
    static const char *const marks[] = {"", "", "(", " (", "( ", "\\\n(\t", ",", " , ", "(("};
    add_text(text, "%s%s%s", PICK(fronts), PICK(marks), one_in(6) ? "CONFIG_" : "");
    if (!one_in(6))
        add_text(text, "%s%s%s", name(), PICK(marks), one_in(2) ? name() : "");
}

/* What --strict refuses in a file, and what is like it. */
static void add_hiding(Text *text)
{
    static const char *const hiding[] = {
        ".incbin \"b\"", ".include \"b\"", "#if __has_include(<b.h>)", "__has_embed(x)", "__DATE__", "(__TIME__)", "__TIMESTAMP__",
        "#include NAME", "#include NAME", "#include NAME\r", "#include OTHER x", "#include _NAME", "#include NAME(x)", "#include CONFIG_A",
        "#ifdef NAME", "#if defined(NAME)", "defined ( NAME", "#undef\tNAME", "ifdef\vNAME", "#define NAME x", "OTHER", "NAMES", "_NAME",
        "ab\\\ncd", "#include \"a.h\"", "#include <none.h>", "__TIME", "__DATES__", "ab \\\n cd", "ab\\\n", ".IncBin \"b\"", ".Include \"b\"",
        ".iNCLUDEs", ".include2", "#embed \"a.h\"", "# embed NAME", "ab?\?/\ncd", "ab?\?/cd",
    };
    add_text(text, "\n%s\n", PICK(hiding));
}

static Bytes made_source(void)
{
    static const char *const between[] = {" ", "\n", "\t", "(", ")", "x", "_", "CONFIG_", "_MODULE", "\0", "\r\n", "-", "\377", "CONFIG"};
    Text text = {0};
    for (size_t count = below(12); count > 0; count--) {
        if (one_in(3))
            add_text(&text, "CONFIG_%s%s", name(), one_in(5) ? "_MODULE" : "");
        if (one_in(project ? 2 : 12))
            add_words(&text);
        const char *gap = PICK(between);
        add(&text, (Bytes){gap, *gap ? strlen(gap) : 1});
    }
    if (one_in(is_build ? 10 : 60))
        add_hiding(&text);
    return of_text(&text);
}

static const char *const sources[] = {"x.c", "a.h", "b.h", "d/c.h", "t.s", "./a.h", "d//c.h"};
static const char *const odd_paths[] = {"none.h", "d", "x.c/y", "a$b.h", "include/generated/autoconf.h", "y.o:", "a.h", "\303\244.h", "a#b", "a;b", "(a)", "d/", "include/autoconf.h", "d/include/autoconf.h", "my_include/autoconf.h"};

/* Whether the last dependency file is as a compiler writes one: not damaged. */
static bool is_compiled;

/* That of a build has a source first, and more often the header of all symbols. */
static Bytes made_depfile(void)
{
    static const char *const headers[] = {"include/generated/autoconf.h", "include/generated/autoconf.h", "./include/generated/autoconf.h", "d/include/autoconf.h"};
    Text text = {0};
    if (!rarely(30))
        add_text(&text, "x.o:");
    if (is_build)
        add_text(&text, " %s", one_in(3) ? "t.s" : "x.c");
    for (size_t count = below(8) + !rarely(20); count > 0; count--)
        add_text(&text, "%s%s", one_in(5) ? " \\\n " : " ", rarely(12) ? PICK(odd_paths) : PICK(sources));
    if (is_build && one_in(3))
        add_text(&text, " %s", PICK(headers));
    if (one_in(4))
        add_text(&text, "\ny.o: %s %s", PICK(sources), PICK(sources));
    add_text(&text, "%s", line_end());
    Bytes made = perhaps_damaged(&text, 20);
    is_compiled = same(made, of_text(&text));
    return made;
}

static const char *const targets[] = {"x.o", "d/y.o", "d/e/z.o"};
static const char *const odd_targets[] = {"x.o/", "a$b", "", "d", "none.o", "x.c/y.o", "./x.o", "d//y.o", "./d/./e/z.o"};
static const char *const commands[] = {"cc -c x.c", "cc -O2 -c x.c", "", " := ", "$(x) #\\", "cc \303\244"};
static const char *const odd_commands[] = {"a\nb", "a\rb", "x.o := y"};

/* In these directories of U-Boot symbols have a prefix. */
static const char *const phase_targets[] = {"spl/x.o", "tpl/d/y.o", "vpl/x.o", "tools/x.o", "d/spl/x.o"};

static const char *target(void)
{
    if (is_of("u-boot") && one_in(3))
        return PICK(phase_targets);
    return one_in(25) ? PICK(odd_targets) : PICK(targets);
}

static const char *command(void)
{
    return one_in(25) ? PICK(odd_commands) : PICK(commands);
}

static Bytes made_command_file(const char *of)
{
    Text text = {0};
    add_text(&text, "%s%s := %s\n\nsource_%s := %s\n\ndeps_%s := \\\n", one_in(30) ? "cmd_" : "savedcmd_", of, PICK(commands), of, PICK(sources), of);
    for (size_t count = below(5); count > 0; count--)
        add_text(&text, one_in(2) ? "  %s \\\n" : "    $(wildcard include/config/%s) \\\n", one_in(9) ? name() : PICK(names));
    add_text(&text, "\n%s: $(deps_%s)\n\n$(deps_%s):\n", of, of, of);
    if (one_in(4))
        add_text(&text, "\n#SYMVER f 0x1\n");
    if (!one_in(6))
        add_text(&text, "#generation %zu\n", below(4));
    return perhaps_damaged(&text, 6);
}

static Bytes made_script(void)
{
    Text text = {0};
    for (size_t count = below(6) + 1; count > 0; count--) {
        switch (below(7)) {
        case 0:
            add_text(&text, "%s%s", one_in(2) ? "# a comment" : "", line_end());
            break;
        case 1:
        case 2:
            add_text(&text, "sync %s %s%s", one_in(2) ? "Kconfig" : "K2", one_in(2) ? ".config" : "c2", line_end());
            break;
        case 3:
        case 4:
            add_text(&text, "record x.d %s %s%s", target(), PICK(commands), line_end());
            break;
        default:
            add_text(&text, "stale %s%s", target(), line_end());
        }
    }
    return perhaps_damaged(&text, 10);
}

static Bytes made_list(void)
{
    Text text = {0};
    for (size_t count = below(5) + (is_build ? 3 : 0); count > 0; count--)
        add_text(&text, "%s%s", one_in(8) ? "" : target(), line_end());
    return perhaps_damaged(&text, 10);
}

/* The names of stamps, one a line. */
static Bytes made_names(void)
{
    Text text = {0};
    for (size_t i = 0; i < sizeof names / sizeof *names; i++)
        if (!one_in(4))
            add_text(&text, "%s%s", one_in(60) ? "A-B" : names[i], line_end());
    return perhaps_damaged(&text, 30);
}

static void put_text(Tree *tree, const char *path, Bytes bytes)
{
    put(tree, bytes_of(path), bytes);
}

static Bytes command_file_of(const char *of)
{
    Text path = {0};
    const char *base = strrchr(of, '/');
    base = base ? base + 1 : of;
    add_text(&path, "%.*s.%s.cmd", (int)(base - of), of, base);
    return of_text(&path);
}

static Tree made_tree(void)
{
    static const char *const stamps[] = {"", "0\n", "1\n", "2\n", "3\n", "7\n", "01\n", "7", "7\r\n", "x"};
    Tree tree = {0};
    for (size_t i = 0; i < sizeof names / sizeof *names; i++)
        kind_of_name[i] = below(5);
    put_text(&tree, "K2", made_kconfig());
    put_text(&tree, "Kconfig", made_kconfig());
    put_text(&tree, ".config", made_dotconfig());
    put_text(&tree, "c2", made_dotconfig());
    put_written(&tree);
    put_text(&tree, "x.d", made_depfile());
    put_text(&tree, "cc", bytes_of("\177ELF\2"));
    put_text(&tree, "script", made_script());
    put_text(&tree, "list", made_list());
    put_text(&tree, "names", made_names());
    if (one_in(3))
        put_text(&tree, "kept.auto", made_auto());
    for (size_t i = 0; i < 5; i++)
        if (!rarely(40))
            put_text(&tree, sources[i], made_source());
    if (rarely(3))
        put_text(&tree, "include/config/auto.conf", made_auto());
    if (one_in(2)) {
        const char *of = PICK(targets);
        put(&tree, command_file_of(of), made_command_file(one_in(20) ? "w.o" : of));
    }
    for (size_t count = one_in(2) ? below(4) : 0; count > 0; count--) {
        Text path = {0};
        add_text(&path, "include/config/%s", PICK(names));
        put(&tree, of_text(&path), bytes_of(stamps[one_in(8) ? below(10) : below(5)]));
    }
    if (rarely(40))
        take_away(&tree, tree.files[below(tree.count)].path);
    return tree;
}

/* A command: its words, as the program and the model get them. */

typedef struct {
    Bytes words[MOST_WORDS];
    size_t count;
} Command;

static void word(Command *made, const char *text)
{
    made->words[made->count++] = copy_of(bytes_of(text));
}

static const char *file_word(const char *usual)
{
    return one_in(40) ? PICK(odd_paths) : usual;
}

static void words_of_fixdep(Command *made)
{
    word(made, "fixdep");
    word(made, file_word("x.d"));
    word(made, target());
    word(made, command());
}

/* An option, and the word after it where it has one: right after the command, or after all words so far. */
static void put_option(Command *made, const char *option, const char *after)
{
    Command told = {.count = 0};
    word(&told, option);
    if (after)
        word(&told, after);
    size_t place = one_in(2) ? 1 : made->count;
    memmove(made->words + place + told.count, made->words + place, (made->count - place) * sizeof *made->words);
    memcpy(made->words + place, told.words, told.count * sizeof *told.words);
    made->count += told.count;
}

/* The two files of a `sync`, or of what tells of one before it: a Kconfig and a .config, or what conf wrote. */
static void words_of_sync(Command *made, const char *command_word)
{
    bool is_written = !is_of("busybox") && one_in(3), is_swapped = rarely(20);
    word(made, command_word);
    if (is_written) {
        word(made, file_word(is_swapped ? "conf.h" : "conf.auto"));
        word(made, file_word(is_swapped ? "conf.auto" : "conf.h"));
        put_option(made, "--written", NULL);
    } else {
        word(made, file_word(one_in(4) ? "K2" : "Kconfig"));
        word(made, file_word(one_in(3) ? "c2" : ".config"));
    }
}

static void words_of_preview(Command *made)
{
    words_of_sync(made, "preview");
    if (one_in(2))
        word(made, file_word("include/config/auto.conf"));
}

/* Up to three targets, and perhaps a file of targets; at times neither, which is no command. */
static void objects(Command *made)
{
    bool has_file = one_in(3);
    for (size_t count = below(3) + (!has_file && !one_in(20)); count > 0; count--)
        word(made, target());
    if (has_file)
        put_option(made, "--from", file_word("list"));
}

static void perhaps_json(Command *made)
{
    if (one_in(3))
        put_option(made, "--json", NULL);
}

static void words_of_diff(Command *made)
{
    words_of_sync(made, "diff");
    if (one_in(3))
        put_option(made, "--exit-code", NULL);
    if (one_in(3))
        put_option(made, "--quiet", NULL);
}

static void words_of_users(Command *made)
{
    static const char *const odd_symbols[] = {"", "CONFIG_", "A-B", "CONFIG_CONFIG_A", "A_MODULE", "include/config/A"};
    word(made, "users");
    for (size_t count = below(4) + !one_in(20); count > 0; count--) {
        Text symbol = {0};
        add_text(&symbol, "%s%s", one_in(3) ? "CONFIG_" : "", one_in(12) ? PICK(odd_symbols) : name());
        word(made, (const char *)copy_of(of_text(&symbol)).at);
    }
    if (!one_in(30))
        put_option(made, "--from", file_word("list"));
}

static void words_of_cost(Command *made)
{
    static const char *const numbers[] = {"0", "1", "2", "3", "7", "1000000", "x"};
    word(made, "cost");
    objects(made);
    if (one_in(3))
        put_option(made, "--top", PICK(numbers));
}

static void words_of_mark(Command *made)
{
    word(made, "mark");
    objects(made);
    if (one_in(2))
        put_option(made, "--unrecorded", NULL);
}

/* At times the compiler ran in a directory below or elsewhere, which may be none; and at times the tree has no name there. */
static void elsewhere(Command *made)
{
    static const char *const directories[] = {"d", "d", "d/e", ".", "/", "x y", ""};
    static const char *const trees[] = {"..", "../t", "/t", "t$", "."};
    if (!one_in(3))
        return;
    put_option(made, "--in", PICK(directories));
    if (!one_in(5))
        put_option(made, "--tree", PICK(trees));
}

static void words_of_record(Command *made)
{
    word(made, "record");
    word(made, file_word("x.d"));
    word(made, target());
    word(made, command());
    if (one_in(3))
        put_option(made, "--cmd", NULL);
    if (one_in(3))
        put_option(made, "--before-sync", NULL);
    elsewhere(made);
}

/* A command of a compile, whose words mention symbols at times. */
static const char *naming_command(void)
{
    static const char *const naming_commands[] = {
        "cc -DX=CONFIG_A -c x.c", "cc -DCONFIG_B -c x.c", "cc -DX=CONFIG_S_MODULE -DY=CONFIG_C -DZ=CONFIG_C", "CONFIG_IS_ENABLED(A) CONFIG_VAL(H)",
        "cc -DX=ENABLE_H -DY=IF_NOT_A(x)", "cc -DX='CONFIG(E_1)'", "CONFIG_x86",
    };
    return one_in(2) ? PICK(naming_commands) : command();
}

/* A compile of words that --strict knows, and at times one that it doesn't. */
static Bytes compile_command(void)
{
    static const char *const fronts[] = {
        "env ", "nice -n 5 ", "/usr/bin/ccache ", "distcc ", "X=1 ", "env -i ", "env -u X ", "env --unset=X ", "GCC_X=1 ", "PATH=/x ", "nice -5 ",
    };
    static const char *const known[] = {
        "-O2", "-g", "-Wall", "-DX=CONFIG_A", "-D X=CONFIG_S", "-o x.o", "-std=gnu11", "-fno-plugin", "-fPIC", "-m64", "-MD", "-MF x.d",
        "-Wp,-MD,x.d", "-Wp,-D_X=1", "-Wp,-U_X", "-fuse-ld=x", "-DNAMES", "-UNAME", "-Wa,--x",
        "-x c", "-xc", "-Xassembler --warn", "-Xclang -fx", "-Xclang +x", "y.S", "libx.a", "-w", "-pipe", "-I d", "-Id", "-fmacro-prefix-map=/a=b",
        "-fuse-x=/y", "-finput-charset=UTF-8", "-frandom-seed=/x", "-feliminate-unused-x", "-fcoverage-prefix-map=/a=b", "-mllvm -fx", "-rtlib=x",
    };
    static const char *const unknown[] = {
        "@x.rsp", "-fplugin=x.so", "-", "-include-pch", "x.h", "-I=d", "-x c-header", "-xc++-header", "-Xclang -load", "-Xpreprocessor a.h",
        "-Wp,-include", "-Wp,-MD,@x", "-Wa,@x", "-m@x", "-fprofile-use", "-fmodules", "-D @x", "/dev/stdin.c", "/proc/1/x.c", "--x", "-T",
        "-fprofile-instr-use", "-finput-charset=x", "-fpreprocessed", "-mllvm -x=y", "-mllvm=-x", "-gstabs3", "-Xassembler --x", "-Wa,--x,y.s", "x", "-I =d", "-isystem $X", "-DNAME=x", "-D OTHER", "-DNAME", "-Wp,-MD,x.d,-DNAME", "-Wp,-DX", "-Wp,-U_X,-DX", "-g3",
        "-Wa,--x,-Id", "-Wa,--gstabs", "-dM", "-Xclang -x", "-fcoverage-mapping", "-Xassembler --x.y", "-o -DNAME", "-DX=__TIME__", "-D X=__has_include", "-D/NAME",
    };
    Text text = {0};
    while (one_in(4))
        add_text(&text, "%s", one_in(2) ? fronts[below(7)] : PICK(fronts));
    add_text(&text, "cc%s", one_in(20) ? "" : " -c");
    for (size_t count = below(6); count > 0; count--)
        add_text(&text, " %s", one_in(10) ? PICK(unknown) : PICK(known));
    return of_text(&text);
}

/* --strict, with the other spelling of the header. It is asked for where the model knows the answer: in the story of a build, as there
   the header is one that a `sync` wrote, and of a dependency file as a compiler writes it. */
static void ask_strictly(Command *made)
{
    static const char *const tools[] = {"x.c", "none", "a$b", "Kconfig", "./cc"};
    static const char *const others[] = {"include/generated/autoconf.h", "./include/generated/autoconf.h", "d/include/autoconf.h", "a$b"};
    made->words[made->count - 1] = copy_of(compile_command());
    put_option(made, "--strict", PICK(others));
    if (one_in(2))
        return;
    word(made, "--tools");
    for (size_t count = 1 + below(2); count > 0; count--)
        word(made, rarely(6) ? PICK(tools) : "cc");
}

/* A record of which the dependency file is written anew: mostly the compiler's, seldom one that is not to be. */
static void words_of_depfile(Command *made)
{
    static const char *const own_files[] = {"include/config/x.d", "include/config/A", "include/generated/autoconf.h", "x.tmp", "d/.y.o.cmd"};
    static const char *const suffixes[] = {"a.h", "c.h", "d/c.h", "h", ".h", "/c.h", "./a.h", "x.c"};
    static const char *const suffixes_of_build[] = {"include/generated/autoconf.h", "generated/autoconf.h", "autoconf.h", "none.h"};
    static const char *const odd_suffixes[] = {"", "a$b.h", "a.h:", "a h", "d/"};
    word(made, "depfile");
    word(made, one_in(15) ? PICK(own_files) : file_word("x.d"));
    word(made, target());
    word(made, naming_command());
    if (is_build && is_compiled && one_in(2))
        ask_strictly(made);
    if (one_in(is_build ? 4 : 2))
        put_option(made, "--header", one_in(12) ? PICK(odd_suffixes) : one_in(4) || is_build ? PICK(suffixes_of_build) : PICK(suffixes));
    elsewhere(made);
}

/* A repair, by what was kept or without. */
static void words_of_repair(Command *made)
{
    word(made, "repair");
    if (one_in(2)) {
        word(made, file_word("kept.auto"));
        if (!one_in(20))
            word(made, file_word("conf.h"));
    }
    put_option(made, "--stamps", file_word("names"));
    if (!one_in(40))
        put_option(made, "--targets", file_word("list"));
}

/* What writes nothing: `stale` or `why`, `impact`, `diff`, `status`, `users` or `cost`. */
static Command made_question(void)
{
    Command made = {.count = 0};
    switch (below(10)) {
    case 0:
        if (one_in(2))
            words_of_diff(&made);
        else if (one_in(3))
            word(&made, "status");
        else
            words_of_sync(&made, "status");
        break;
    case 1:
        words_of_sync(&made, "impact");
        objects(&made);
        perhaps_json(&made);
        break;
    case 2:
        words_of_users(&made);
        break;
    case 3:
        words_of_cost(&made);
        break;
    default:
        word(&made, one_in(2) ? "stale" : "why");
        objects(&made);
        perhaps_json(&made);
    }
    return made;
}

static Command made_command(void)
{
    Command made = {.count = 0};
    switch (below(16)) {
    case 0:
    case 1:
        words_of_sync(&made, "sync");
        break;
    case 2:
        words_of_preview(&made);
        break;
    case 3:
    case 4:
    case 5:
        if (one_in(4))
            words_of_fixdep(&made);
        else if (one_in(2))
            words_of_depfile(&made);
        else
            words_of_record(&made);
        break;
    case 6:
        word(&made, "outdated");
        word(&made, target());
        word(&made, command());
        break;
    case 7:
        word(&made, "batch");
        word(&made, file_word("script"));
        break;
    case 8:
        words_of_mark(&made);
        break;
    case 9:
    case 10:
        words_of_repair(&made);
        break;
    default:
        return made_question();
    }
    return made;
}

/* A step of a build: it is configured, objects are recorded, it is configured anew, and then asked about. */
static Command made_step(size_t step)
{
    Command made = {.count = 0};
    if (step == 0 || step == 3)
        words_of_sync(&made, "sync");
    else if (step < 3 && one_in(2))
        words_of_depfile(&made);
    else if (step < 3)
        words_of_record(&made);
    else if (one_in(4))
        words_of_mark(&made);
    else
        return made_question();
    return made;
}

/* The words of the project in front of a command, at times of another one. */
static void say_project(Command *made)
{
    const char *said = one_in(project ? 10 : 40) ? PICK(projects) : project;
    if (!said)
        return;
    memmove(made->words + 2, made->words, made->count * sizeof *made->words);
    made->words[0] = bytes_of("--dialect");
    made->words[1] = bytes_of(said);
    made->count += 2;
}

/* The tree on the disk, below the current directory. */

static void make_folders(char *path)
{
    for (char *slash = strchr(path, '/'); slash; slash = strchr(slash + 1, '/')) {
        *slash = '\0';
        if (mkdir(path, 0777) && errno != EEXIST)
            give_up(path);
        *slash = '/';
    }
}

static void write_file(Bytes path, Bytes bytes)
{
    char *place = (char *)copy_of(path).at;
    make_folders(place);
    int file = open(place, O_WRONLY | O_CREAT | O_TRUNC | O_CLOEXEC, 0666);
    if (file < 0 || write(file, bytes.at ? bytes.at : "", bytes.length) != (ssize_t)bytes.length || close(file))
        give_up(place);
}

static Tree found;

static int note_file(const char *path, const struct stat *about, int kind, struct FTW *place)
{
    (void)about;
    (void)place;
    if (kind != FTW_F)
        return kind == FTW_D ? 0 : 1;
    int file = open(path, O_RDONLY | O_CLOEXEC);
    if (file < 0)
        give_up(path);
    put(&found, bytes_of(path), read_whole(file));
    close(file);
    return 0;
}

static int remove_entry(const char *path, const struct stat *about, int kind, struct FTW *place)
{
    (void)about;
    (void)kind;
    return place->level == 0 ? 0 : remove(path);
}

static void empty_folder(void)
{
    if (nftw(".", remove_entry, 16, FTW_DEPTH | FTW_PHYS))
        give_up("emptying the directory");
}

static const char *program;

/* Whether the output has a line that ends in a failure of the system. */
static bool tells_device(Bytes output)
{
    static const char line[] = "refused 30 Device\n", object[] = "\"refused\":\"30 Device\"}\n";
    return memmem(output.at, output.length, line, sizeof line - 1) || memmem(output.at, output.length, object, sizeof object - 1);
}

/* The length of the first line. */
static size_t line_length(Bytes text)
{
    const char *end = text.length ? memchr(text.at, '\n', text.length) : NULL;
    return end ? (size_t)(end - text.at) + 1 : text.length;
}

static const char before_error[] = "confstamp: ";

static bool has_error(Bytes line)
{
    return line.length > sizeof before_error && memcmp(line.at, before_error, sizeof before_error - 1) == 0;
}

/* Whether a text is the hint of the error that a line reports; without such a line it is that of 30 Device. */
static bool is_hint(Bytes text, Bytes line)
{
    int number = has_error(line) ? atoi(line.at + sizeof before_error - 1) : 30;
    char ends[64];
    size_t length = (size_t)snprintf(ends, sizeof ends, " (confstamp explain %d)\n", number);
    return text.length > length + 6 && line_length(text) == text.length && memcmp(text.at, "hint: ", 6) == 0 &&
           memcmp(text.at + text.length - length, ends, length) == 0;
}

/* Whether standard error is the line that is expected, after it at most one line of two spaces and a place, and in the end the hint of
   that error. Where no error is expected there may be such lines if the output tells a failure of the system. */
static bool is_told(Bytes error, Bytes expected, Bytes output)
{
    if (error.length < expected.length || (expected.length && memcmp(error.at, expected.at, expected.length)))
        return false;
    Bytes rest = {error.at + expected.length, error.length - expected.length};
    if (!has_error(expected) && (rest.length == 0 || !tells_device(output)))
        return rest.length == 0;
    if (rest.length > 3 && memcmp(rest.at, "  ", 2) == 0) {
        size_t place = line_length(rest);
        rest = (Bytes){rest.at + place, rest.length - place};
    }
    return is_hint(rest, expected);
}

/* A usage text is any text but the line of a refusal. */
static bool is_usage(Bytes error)
{
    static const char refusal[] = "confstamp: ";
    return error.length > 0 && (error.length < sizeof refusal || memcmp(error.at, refusal, sizeof refusal - 1));
}

static void show(const char *what, Bytes text)
{
    fprintf(stderr, "%s:\n", what);
    if (text.length)
        fwrite(text.at, 1, text.length, stderr);
    fputs(text.length && text.at[text.length - 1] == '\n' ? "" : "\n", stderr);
}

/* Tells the first file in which the two trees differ. */
static bool same_trees(const Tree *wanted, const Tree *there, bool is_loud)
{
    for (size_t i = 0; i < wanted->count; i++) {
        const File *file = find(there, wanted->files[i].path);
        if (file && same(file->bytes, wanted->files[i].bytes))
            continue;
        if (is_loud) {
            show("the file that differs", wanted->files[i].path);
            show("expected", wanted->files[i].bytes);
            show("found", file ? file->bytes : bytes_of("(no file)"));
        }
        return false;
    }
    for (size_t i = 0; i < there->count; i++)
        if (!find(wanted, there->files[i].path)) {
            if (is_loud)
                show("a file that should not be", there->files[i].path);
            return false;
        }
    return true;
}

static uint64_t refusals;

/* Runs a command both ways, and compares. */
static bool agrees(Tree *tree, const Command *command)
{
    Answer wanted = run_words(tree, command->words, command->count);
    Answer answer = run_program(program, command->words, command->count);
    found = (Tree){0};
    if (nftw(".", note_file, 16, FTW_PHYS))
        give_up("reading the directory");
    refusals += wanted.status == 2;
    bool is_same = answer.status == wanted.status && same(answer.output, wanted.output);
    bool says_why = wanted.is_usage ? is_usage(answer.error) : is_told(answer.error, wanted.error, wanted.output);
    if (is_same && says_why && same_trees(tree, &found, false))
        return true;
    fprintf(stderr, "status %d, expected %d; words:", answer.status, wanted.status);
    for (size_t i = 0; i < command->count; i++)
        fprintf(stderr, " '%s'", command->words[i].at);
    fputc('\n', stderr);
    show("expected output", wanted.output);
    show("output", answer.output);
    show("expected error", wanted.is_usage ? bytes_of("(a usage text)") : wanted.error);
    show("error", answer.error);
    same_trees(tree, &found, true);
    return false;
}

/* The header gets another line, or loses its last one, as where another tool writes it. */
static void edit_header(Tree *tree)
{
    const File *header = find(tree, bytes_of("include/generated/autoconf.h"));
    if (!header)
        return;
    Text text = {0};
    add(&text, header->bytes);
    if (one_in(2))
        add_text(&text, "#define %s 1\n", one_in(2) ? "HAVE_X" : "CONFIG_NONE");
    else
        for (text.length--; text.length && text.at[text.length - 1] != '\n'; text.length--)
            ;
    put(tree, header->path, of_text(&text));
    write_file(header->path, of_text(&text));
}

/* A file of the tree becomes another one, as an editor, a compiler or conf makes it. */
static void edit(Tree *tree)
{
    switch (below(5)) {
    case 0:
        put_text(tree, ".config", made_dotconfig());
        write_file(bytes_of(".config"), find(tree, bytes_of(".config"))->bytes);
        break;
    case 1:
        put_text(tree, "c2", made_dotconfig());
        write_file(bytes_of("c2"), find(tree, bytes_of("c2"))->bytes);
        break;
    case 2:
        put_written(tree);
        write_file(bytes_of("conf.auto"), find(tree, bytes_of("conf.auto"))->bytes);
        write_file(bytes_of("conf.h"), find(tree, bytes_of("conf.h"))->bytes);
        break;
    case 3:
        put_text(tree, "x.d", made_depfile());
        write_file(bytes_of("x.d"), find(tree, bytes_of("x.d"))->bytes);
        break;
    default:
        if (is_build && one_in(2))
            edit_header(tree);
    }
}

static bool run_case(uint64_t seed, uint64_t number, uint64_t *runs)
{
    state = seed ^ (number * 0xd1342543de82ef95);
    forget_all();
    empty_folder();
    is_build = one_in(3);
    project = one_in(2) ? NULL : projects[below(3)];
    Tree tree = made_tree();
    for (size_t i = 0; i < tree.count; i++)
        write_file(tree.files[i].path, tree.files[i].bytes);
    size_t count = is_build ? 5 + below(3) : 1 + below(4);
    for (size_t step = 0; step < count; step++) {
        Command command = is_build ? made_step(step) : made_command();
        say_project(&command);
        ++*runs;
        if (!agrees(&tree, &command)) {
            fprintf(stderr, "fuzz: seed %llu, case %llu\n", (unsigned long long)seed, (unsigned long long)number);
            return false;
        }
        edit(&tree);
    }
    return true;
}

int main(int count, char **words)
{
    if (count < 4) {
        fputs("usage: fuzz PROGRAM SEED CASES [SECONDS]\n", stderr);
        return 2;
    }
    program = words[1];
    auto_is_typed = getenv("TYPED") != NULL;
    uint64_t seed = strtoull(words[2], NULL, 10), cases = strtoull(words[3], NULL, 10), runs = 0, number = 0;
    time_t end = count > 4 ? time(NULL) + atol(words[4]) : 0;
    open_outputs();
    for (; number < cases && (end == 0 || time(NULL) < end); number++)
        if (!run_case(seed, number, &runs))
            return 1;
    printf("%llu cases, %llu commands, %llu refused\n", (unsigned long long)number, (unsigned long long)runs, (unsigned long long)refusals);
    return 0;
}
