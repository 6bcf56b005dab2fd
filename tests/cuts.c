/* SPDX-License-Identifier: Apache-2.0 OR MIT */
/* Runs the program on damaged files, and compares with a table; or makes the table, from model.c alone.

       cuts --make FILE..           prints the table for these files of the current directory
       cuts PROGRAM < TABLE         runs the program in the current directory

   Each file is cut after each of its bytes, and each byte is replaced by seven others in turn. A line of the table is

       FILE DAMAGE FIRST LAST STATUS ANSWER WORDS..

   in the words of a shell without quotes: for the places FIRST to LAST the command WORDS ends with STATUS and prints ANSWER,
   to standard error where the status is 2 and ANSWER begins with `confstamp:`. DAMAGE is `cut`, or the number of a byte. In
   ANSWER and WORDS a byte other than 0x21 to 0x7E, and a backslash, is `\` and three octal digits. */
#include "program.h"

#include <stdio.h>
#include <stdlib.h>
#include <string.h>

enum { MOST_LINE = 65536 };

static const int damages[] = {-1, 0, '\n', '\r', '"', '\\', '#', 255};

static Bytes load_file(const char *path)
{
    FILE *file = fopen(path, "rb");
    if (!file)
        give_up(path);
    Text text = {0};
    char room[4096];
    size_t length;
    while ((length = fread(room, 1, sizeof room, file)) > 0)
        add(&text, (Bytes){room, length});
    fclose(file);
    return of_text(&text);
}

static void store_file(const char *path, Bytes bytes)
{
    FILE *file = fopen(path, "wb");
    if (!file || fwrite(bytes.at, 1, bytes.length, file) != bytes.length || fclose(file))
        give_up(path);
}

static Bytes damaged(Bytes whole, int damage, size_t place)
{
    Bytes made = copy_of(whole);
    if (damage < 0)
        made.length = place;
    else
        ((char *)made.at)[place] = (char)damage;
    return made;
}

static Bytes escaped(Bytes bytes)
{
    Text text = {0};
    for (size_t i = 0; i < bytes.length; i++) {
        unsigned char byte = (unsigned char)bytes.at[i];
        if (byte < 0x21 || byte > 0x7e || byte == '\\')
            add_text(&text, "\\%03o", byte);
        else
            add(&text, (Bytes){bytes.at + i, 1});
    }
    return of_text(&text);
}

static Bytes unescaped(Bytes bytes)
{
    Text text = {0};
    for (size_t i = 0; i < bytes.length; i++) {
        char byte = bytes.at[i];
        if (byte == '\\' && i + 3 < bytes.length) {
            byte = (char)((bytes.at[i + 1] - '0') * 64 + (bytes.at[i + 2] - '0') * 8 + (bytes.at[i + 3] - '0'));
            i += 3;
        }
        add(&text, (Bytes){&byte, 1});
    }
    return of_text(&text);
}

/* What is printed, as the table has it. `-` stands for nothing. */
static Bytes shown(Answer answer)
{
    Text text = {0};
    add(&text, answer.error);
    add(&text, answer.output);
    return text.length ? escaped(of_text(&text)) : bytes_of("-");
}

/* The commands that read a file. */
static size_t commands_for(const char *path, Bytes commands[2][MOST_WORDS], size_t counts[2])
{
    static const char *const table[][1 + MOST_WORDS] = {
        {"Kconfig", "preview", "Kconfig", ".config"},
        {".config", "preview", "Kconfig", ".config"},
        {"include/config/auto.conf", "preview", "Kconfig", ".config", "include/config/auto.conf"},
        {"x.d", "fixdep", "x.d", "x.o", "cc -c x.c"},
        {".x.o.cmd", "stale", "x.o"},
        {".x.o.cmd", "outdated", "x.o", "cc -c x.c"},
    };
    size_t found = 0;
    for (size_t i = 0; i < sizeof table / sizeof *table; i++) {
        if (strcmp(table[i][0], path))
            continue;
        for (counts[found] = 0; counts[found] < MOST_WORDS && table[i][1 + counts[found]]; counts[found]++)
            commands[found][counts[found]] = bytes_of(table[i][1 + counts[found]]);
        found++;
    }
    return found;
}

static void print_row(const char *path, int damage, size_t first, size_t last, int status, Bytes answer, const Bytes *words, size_t count)
{
    printf("%s ", path);
    if (damage < 0)
        printf("cut");
    else
        printf("%d", damage);
    printf(" %zu %zu %d %.*s", first, last, status, (int)answer.length, answer.at);
    for (size_t i = 0; i < count; i++) {
        Bytes word = escaped(words[i]);
        printf(" %.*s", (int)word.length, word.at);
    }
    putchar('\n');
}

/* The rows of one command over one file: places that follow each other and are answered alike are one row. */
static void make_rows(const Tree *tree, const char *path, int damage, const Bytes *words, size_t count)
{
    Bytes whole = find(tree, bytes_of(path))->bytes, answer = {NULL, 0};
    int status = -1;
    size_t first = 0;
    for (size_t place = 0; place < whole.length; place++) {
        Tree changed = copy_of_tree(tree);
        put(&changed, bytes_of(path), damaged(whole, damage, place));
        Answer found = run_words(&changed, words, count);
        Bytes said = shown(found);
        if (place > 0 && (found.status != status || !same(said, answer))) {
            print_row(path, damage, first, place - 1, status, answer, words, count);
            first = place;
        }
        status = found.status;
        answer = said;
    }
    print_row(path, damage, first, whole.length - 1, status, answer, words, count);
}

static void make_table(char **paths, size_t count)
{
    Tree tree = {0};
    for (size_t i = 0; i < count; i++)
        put(&tree, bytes_of(paths[i]), load_file(paths[i]));
    for (size_t i = 0; i < count; i++) {
        Bytes commands[2][MOST_WORDS];
        size_t counts[2], found = commands_for(paths[i], commands, counts);
        for (size_t c = 0; c < found; c++)
            for (size_t d = 0; d < sizeof damages / sizeof *damages; d++)
                make_rows(&tree, paths[i], damages[d], commands[c], counts[c]);
    }
}

static Bytes first_line(Bytes text)
{
    const char *end = text.length ? memchr(text.at, '\n', text.length) : NULL;
    return end ? (Bytes){text.at, (size_t)(end - text.at) + 1} : text;
}

static size_t cases, failed;

/* Runs a row of the table. */
static void run_row(const char *program, char *line)
{
    char *fields[6 + MOST_WORDS];
    size_t count = 0;
    for (char *field = strtok(line, " \n"); field && count < 6 + MOST_WORDS; field = strtok(NULL, " \n"))
        fields[count++] = field;
    if (count < 7)
        give_up("a line of the table");
    Bytes words[MOST_WORDS];
    for (size_t i = 6; i < count; i++)
        words[i - 6] = unescaped(bytes_of(fields[i]));
    int damage = strcmp(fields[1], "cut") ? atoi(fields[1]) : -1;
    Bytes whole = load_file(fields[0]);
    for (size_t place = (size_t)atol(fields[2]); place <= (size_t)atol(fields[3]); place++) {
        store_file(fields[0], damaged(whole, damage, place));
        Answer answer = run_program(program, words, count - 6);
        answer.error = first_line(answer.error);
        Bytes said = shown(answer);
        cases++;
        if (answer.status == atoi(fields[4]) && is_text(said, fields[5]))
            continue;
        failed++;
        fprintf(stderr, "cuts: %s, %s at %zu: status %d, %.*s; expected %s, %s\n", fields[0], fields[1], place, answer.status,
                (int)said.length, said.at, fields[4], fields[5]);
    }
    store_file(fields[0], whole);
    forget_all();
}

int main(int count, char **words)
{
    auto_is_typed = getenv("TYPED") != NULL;
    if (count > 2 && strcmp(words[1], "--make") == 0) {
        make_table(words + 2, (size_t)(count - 2));
        return 0;
    }
    if (count != 2) {
        fputs("usage: cuts --make FILE.. | cuts PROGRAM < TABLE\n", stderr);
        return 2;
    }
    open_outputs();
    static char line[MOST_LINE];
    size_t rows = 0;
    for (; fgets(line, sizeof line, stdin); rows++)
        run_row(words[1], line);
    printf("%zu damaged files, %zu rows, %zu failed\n", cases, rows, failed);
    return failed > 0;
}
