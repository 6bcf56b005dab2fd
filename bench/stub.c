/* SPDX-License-Identifier: Apache-2.0 OR MIT */
/* A compiler in place of the compiler, for bench/compile. With KEEP it runs the real one, REAL, and keeps the object and its
 * dependency file in STORE; else it copies them from there, so that what is left of a compile is what the build adds to it.
 * What is no compile of an object goes to the real one. */
#define _GNU_SOURCE
#include <fcntl.h>
#include <stdio.h>
#include <stdlib.h>
#include <string.h>
#include <sys/stat.h>
#include <sys/wait.h>
#include <unistd.h>

static char bytes[16 << 20];

/* Makes the directories of a path. */
static void directories(char *path)
{
	for (char *at = strchr(path + 1, '/'); at; at = strchr(at + 1, '/')) {
		*at = 0;
		mkdir(path, 0777);
		*at = '/';
	}
}

static int copy(const char *from, const char *to)
{
	int file = open(from, O_RDONLY);
	if (file < 0)
		return -1;
	ssize_t count = read(file, bytes, sizeof bytes);
	close(file);
	unlink(to);
	file = open(to, O_WRONLY | O_CREAT | O_TRUNC, 0644);
	if (file < 0 || count < 0 || write(file, bytes, count) != count)
		return -1;
	return close(file);
}

int main(int count, char **words)
{
	const char *store = getenv("STORE"), *real = getenv("REAL"), *depfile = 0, *object = 0;
	char kept_object[4096], kept_depfile[4096];
	int compiles = 0;

	if (!store || !real)
		return 127;
	for (int at = 1; at < count; at++) {
		if (!strncmp(words[at], "-Wp,-MMD,", 9))
			depfile = words[at] + 9;
		if (!strcmp(words[at], "-o") && at + 1 < count)
			object = words[at + 1];
		if (!strcmp(words[at], "-c"))
			compiles = 1;
	}
	words[0] = (char *)real;
	if (!compiles || !depfile || !object || object[0] == '/') {
		execvp(real, words);
		return 127;
	}
	snprintf(kept_object, sizeof kept_object, "%s/%s", store, object);
	snprintf(kept_depfile, sizeof kept_depfile, "%s/%s.d", store, object);
	if (getenv("KEEP")) {
		int status;
		pid_t child = fork();
		if (child == 0) {
			execvp(real, words);
			_exit(127);
		}
		if (waitpid(child, &status, 0) < 0 || status)
			return 1;
		directories(kept_object);
		return copy(object, kept_object) || copy(depfile, kept_depfile);
	}
	if (!copy(kept_depfile, depfile) && !copy(kept_object, object))
		return 0;
	execvp(real, words);
	return 127;
}
