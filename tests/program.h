/* SPDX-License-Identifier: Apache-2.0 OR MIT */
/* The program as the sweeps run it, in the current directory, with its two outputs in files beside that directory. */
#ifndef PROGRAM_H
#define PROGRAM_H

#include "model.h"

enum { MOST_WORDS = 20 };

/* Ends the sweep: what it needs of the system is refused. */
void give_up(const char *what);

Bytes read_whole(int file);

/* Opens ../output and ../error, which are there for all runs. */
void open_outputs(void);

/* The words in a tree in which numbers may begin again. The answer has all of standard error. */
Answer run_program(const char *program, const Bytes *words, size_t count);

#endif
