/* SPDX-License-Identifier: Apache-2.0 OR MIT */
/* Claims a file or a directory, as a program that is at work on it does, until standard input ends.

       hold alone|shared PATH

   Prints a line once it has the lock; status 1 where it cannot be had. */
#define _GNU_SOURCE
#include <fcntl.h>
#include <stdio.h>
#include <string.h>
#include <sys/file.h>
#include <unistd.h>

int main(int count, char **words)
{
    if (count != 3) {
        fputs("usage: hold alone|shared PATH\n", stderr);
        return 2;
    }
    int file = open(words[2], O_RDONLY);
    if (file < 0 || flock(file, (strcmp(words[1], "alone") ? LOCK_SH : LOCK_EX) | LOCK_NB)) {
        perror(words[2]);
        return 1;
    }
    puts("held");
    fflush(stdout);
    char byte;
    while (read(0, &byte, 1) > 0)
        ;
    return 0;
}
