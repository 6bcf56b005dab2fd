/* SPDX-License-Identifier: Apache-2.0 OR MIT */
/* Prints a source of N names, or a dependency file of N paths, that all begin at one place of a table by the kit's FoldHasher
   under the seed 0. A table under that seed compares each of them with most of the others; one under a seed that nobody
   knows has them all over it, as any names. With `others` they are as many of the same length that nobody chose.

       collide names|paths N [others] */
#include <stdint.h>
#include <stdio.h>
#include <stdlib.h>
#include <string.h>

/* A table of 80,000 keys has 131,072 lanes in groups of some eight, so these bits of the hash choose the group. */
enum { CHOSEN = (1 << 14) - 1, LETTERS = 37, FIXED = 13, LENGTH = 20 };

static const uint64_t start = 0x243f6a8885a308d3, multiplier = 0x9e3779b97f4a7c15;

static uint64_t folded(uint64_t a, uint64_t b)
{
    unsigned __int128 product = (unsigned __int128)a * b;
    return (uint64_t)product ^ (uint64_t)(product >> 64);
}

static uint64_t word_at(const char *text, int at)
{
    uint64_t word = 0;
    for (int i = 7; i >= 0; i--)
        word = word << 8 | (unsigned char)text[at + i];
    return word;
}

/* A text of 17 to 32 bytes: its length, its first 16 bytes and its last 16, and then the byte 0xff. */
static uint64_t with_text(uint64_t state, const char *text, int length)
{
    state = folded(word_at(text, 0) ^ (state + length), word_at(text, 8) ^ multiplier);
    state = folded(word_at(text, length - 16) ^ state, word_at(text, length - 8) ^ multiplier);
    uint64_t end = 0xff;
    return folded(state ^ (end | end << 8 | end << 16), multiplier ^ 2);
}

/* What a table looks at. */
static uint32_t place_of(uint64_t state)
{
    return (uint32_t)(state ^ state >> 32) & CHOSEN;
}

int main(int count, char **words)
{
    int are_names = count > 2 && strcmp(words[1], "names") == 0;
    long wanted = count > 2 ? atol(words[2]) : 0;
    int are_others = count > 3 && strcmp(words[3], "others") == 0;
    if (wanted < 1 || (!are_names && (count < 3 || strcmp(words[1], "paths") != 0)))
        return 2;
    const char *letters = "ABCDEFGHIJKLMNOPQRSTUVWXYZ0123456789_";
    char name[LENGTH + 1] = "HOSTILE_NAME_";
    uint64_t seeded = folded(start ^ 0, multiplier ^ 16);
    if (!are_names)
        fputs("x.o: x.c", stdout);
    for (uint64_t number = 0; wanted > 0; number++) {
        uint64_t rest = number;
        for (int i = FIXED; i < LENGTH; i++) {
            name[i] = letters[rest % LETTERS];
            rest /= LETTERS;
        }
        if (are_others || place_of(with_text(seeded, name, LENGTH)) == 0) {
            printf(are_names ? "CONFIG_%s\n" : " %s", name);
            wanted--;
        }
    }
    if (!are_names)
        putchar('\n');
    return 0;
}
