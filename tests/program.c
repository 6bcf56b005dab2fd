/* SPDX-License-Identifier: Apache-2.0 OR MIT */
#define _GNU_SOURCE
#include "program.h"

#include <errno.h>
#include <fcntl.h>
#include <spawn.h>
#include <stdio.h>
#include <stdlib.h>
#include <string.h>
#include <sys/wait.h>
#include <unistd.h>

extern char **environ;

void give_up(const char *what)
{
    fprintf(stderr, "%s: %s: %s\n", program_invocation_short_name, what, strerror(errno));
    exit(2);
}

Bytes read_whole(int file)
{
    Text text = {0};
    char room[8192];
    ssize_t length;
    while ((length = read(file, room, sizeof room)) > 0)
        add(&text, (Bytes){room, (size_t)length});
    if (length < 0)
        give_up("read");
    return of_text(&text);
}

static int output_file, error_file;

void open_outputs(void)
{
    output_file = open("../output", O_RDWR | O_CREAT | O_TRUNC | O_CLOEXEC, 0666);
    error_file = open("../error", O_RDWR | O_CREAT | O_TRUNC | O_CLOEXEC, 0666);
    if (output_file < 0 || error_file < 0)
        give_up("../output");
}

static Bytes printed(int file)
{
    if (lseek(file, 0, SEEK_SET))
        give_up("lseek");
    return read_whole(file);
}

Answer run_program(const char *program, const Bytes *words, size_t count)
{
    char *texts[MOST_WORDS + 3] = {(char *)program, "--begin"};
    for (size_t i = 0; i < count; i++)
        texts[i + 2] = (char *)copy_of(words[i]).at;
    if (ftruncate(output_file, 0) || ftruncate(error_file, 0) || lseek(output_file, 0, SEEK_SET) || lseek(error_file, 0, SEEK_SET))
        give_up("ftruncate");
    posix_spawn_file_actions_t actions;
    posix_spawn_file_actions_init(&actions);
    posix_spawn_file_actions_adddup2(&actions, output_file, 1);
    posix_spawn_file_actions_adddup2(&actions, error_file, 2);
    pid_t child;
    int status;
    errno = posix_spawn(&child, program, &actions, NULL, texts, environ);
    if (errno || waitpid(child, &status, 0) != child)
        give_up(program);
    posix_spawn_file_actions_destroy(&actions);
    int code = WIFEXITED(status) ? WEXITSTATUS(status) : 128 + WTERMSIG(status);
    Bytes output = printed(output_file), error = printed(error_file);
    return (Answer){code, output, error, false};
}
