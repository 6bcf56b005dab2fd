/* SPDX-License-Identifier: Apache-2.0 OR MIT */
/* What confstamp is to do, in C: the texts of docs/formats.md, the refusals of docs/refusals.md, and each command over files
   in memory. It is written from these two documents and shares no code with the program, so that the sweeps beside it have
   answers to compare with. All memory comes from one arena, which forget_all empties. */
#ifndef MODEL_H
#define MODEL_H

#include <stdbool.h>
#include <stddef.h>
#include <stdint.h>

/* Whether auto.conf has the kinds of its entries (`#typed`, `#type NAME KIND`). */
extern bool auto_is_typed;

enum { MAX_BYTES = 67108864 };

typedef struct {
    const char *at;
    size_t length;
} Bytes;

/* A text that grows. */
typedef struct {
    char *at;
    size_t length, room;
} Text;

void *keep(size_t size);
void forget_all(void);
Bytes bytes_of(const char *text);
Bytes copy_of(Bytes bytes);
bool same(Bytes a, Bytes b);
bool is_text(Bytes a, const char *text);
void add(Text *text, Bytes bytes);
void add_text(Text *text, const char *format, ...) __attribute__((format(printf, 2, 3)));
Bytes of_text(const Text *text);

/* The files of a tree by their paths, in no order. A path is taken as it is spelled, but that `./` and `//` say nothing. */
typedef struct {
    Bytes path, bytes;
} File;

typedef struct {
    File *files;
    size_t count, room;
} Tree;

void put(Tree *tree, Bytes path, Bytes bytes);
void take_away(Tree *tree, Bytes path);
const File *find(const Tree *tree, Bytes path);
Tree copy_of_tree(const Tree *tree);

/* A refusal as it is printed: empty where there is none. */
typedef struct {
    Bytes text;
} Fault;

/* What a command did: the exit status, standard output, and what standard error begins with. Where the words are no command
   it is a usage text, which the model doesn't know. */
typedef struct {
    int status;
    Bytes output, error;
    bool is_usage;
} Answer;

/* The words after the program's name, run over a tree. */
Answer run_words(Tree *tree, const Bytes *words, size_t count);

#endif
