/* SPDX-License-Identifier: Apache-2.0 OR MIT */
/* Tells in which state a broken-off command left a tree.

       states AFTER SNAPSHOT..

   Each SNAPSHOT is a directory as one command after another leaves it. AFTER must lie between two that follow each other: of
   the files in which these differ, in the order in which a command writes them (a command file, the stamps by name, the
   header, auto.conf, then a dependency file), those of a beginning are the new ones and all others the old ones. Files that
   end in .tmp may hold anything. Prints how many snapshots lie after, and how many files are new; status 1 where there is no such
   pair. */
#define _GNU_SOURCE
#include <errno.h>
#include <ftw.h>
#include <stdbool.h>
#include <stdio.h>
#include <stdlib.h>
#include <string.h>
#include <sys/stat.h>

enum { MOST = 4096 };

static char *paths[MOST];
static size_t count;
static size_t root_length;

/* The place of a file in the order of writing. */
static int turn(const char *path)
{
    size_t length = strlen(path);
    if (length > 4 && strcmp(path + length - 4, ".cmd") == 0)
        return 0;
    if (strcmp(path, "include/generated/autoconf.h") == 0)
        return 2;
    if (strcmp(path, "include/config/auto.conf") == 0)
        return 3;
    return strncmp(path, "include/config/", 15) == 0 ? 1 : 4;
}

static int by_turn(const void *a, const void *b)
{
    const char *x = *(char *const *)a, *y = *(char *const *)b;
    return turn(x) != turn(y) ? turn(x) - turn(y) : strcmp(x, y);
}

static int note(const char *path, const struct stat *about, int kind, struct FTW *place)
{
    (void)about;
    (void)place;
    size_t length = strlen(path);
    if (kind == FTW_D || (length > 4 && strcmp(path + length - 4, ".tmp") == 0))
        return 0;
    for (size_t i = 0; i < count; i++)
        if (strcmp(paths[i], path + root_length) == 0)
            return 0;
    if (count == MOST)
        return 1;
    paths[count++] = strdup(path + root_length);
    return 0;
}

/* The bytes of a file, with their number, or NULL. */
static char *load(const char *directory, const char *path, size_t *length)
{
    char place[8192];
    snprintf(place, sizeof place, "%s/%s", directory, path);
    FILE *file = fopen(place, "rb");
    if (!file)
        return NULL;
    char *bytes = malloc(1 << 20);
    *length = fread(bytes, 1, 1 << 20, file);
    fclose(file);
    return bytes;
}

static bool same(const char *directory, const char *other, const char *path)
{
    size_t a = 0, b = 0;
    char *first = load(directory, path, &a), *second = load(other, path, &b);
    bool is_same = first && second ? a == b && memcmp(first, second, a) == 0 : !first && !second;
    free(first);
    free(second);
    return is_same;
}

/* Whether the tree is the older snapshot with a beginning of the changes to the newer one. */
static bool lies_between(const char *after, const char *older, const char *newer, size_t *written)
{
    *written = 0;
    bool is_behind = false;
    for (size_t i = 0; i < count; i++) {
        if (same(older, newer, paths[i])) {
            if (!same(after, older, paths[i]))
                return false;
        } else if (!is_behind && same(after, newer, paths[i])) {
            ++*written;
        } else {
            is_behind = true;
            if (!same(after, older, paths[i]))
                return false;
        }
    }
    return true;
}

int main(int words, char **word)
{
    if (words < 3) {
        fputs("usage: states AFTER SNAPSHOT..\n", stderr);
        return 2;
    }
    for (int i = 1; i < words; i++) {
        root_length = strlen(word[i]) + 1;
        if (nftw(word[i], note, 16, FTW_PHYS)) {
            fprintf(stderr, "states: %s: %s\n", word[i], strerror(errno));
            return 2;
        }
    }
    qsort(paths, count, sizeof *paths, by_turn);
    for (int i = 2; i < words; i++) {
        size_t written;
        if (lies_between(word[1], word[i], word[i + 1 < words ? i + 1 : i], &written)) {
            printf("%d %zu\n", i - 2, written);
            return 0;
        }
    }
    for (size_t i = 0; i < count; i++)
        if (!same(word[1], word[2], paths[i]))
            fprintf(stderr, "states: %s is another one\n", paths[i]);
    return 1;
}
