// ipcd-run: runs a program with its System V and POSIX calls redirected to a server of ipcd, see ipcd-run(1).
#define _GNU_SOURCE
#include <errno.h>
#include <libgen.h>
#include <limits.h>
#include <stdbool.h>
#include <stdio.h>
#include <stdlib.h>
#include <string.h>
#include <unistd.h>

#include "program.h"
#include "run_check.h"

enum { MISUSED = 125, NOT_RUN = 126, NOT_FOUND = 127 };

static void fail(int status, const char *name, const char *why)
{
    fprintf(stderr, "ipcd-run: %s: %s\n", name, why);
    exit(status);
}

static void print_usage(FILE *file)
{
    fputs("usage: ipcd-run [--check] [--segments] [--socket SOCKET] [--strict] [--wait SECONDS] PROGRAM "
          "[ARGUMENT]...\n", file);
}

// Sets a variable to a path that holds wherever the program goes.
static void set_socket(const char *socket)
{
    char path[2 * PATH_MAX], folder[PATH_MAX];
    if (*socket == '/')
        snprintf(path, sizeof path, "%s", socket);
    else if (getcwd(folder, sizeof folder) != NULL)
        snprintf(path, sizeof path, "%s/%s", folder, socket);
    else
        fail(MISUSED, socket, strerror(errno));
    if (setenv("IPCD_SOCKET", path, 1) < 0)
        fail(MISUSED, socket, strerror(errno));
}

// The library stands beside this program, or where `make install` puts it.
static void find_library(char *path, size_t size)
{
    static const char *const places[] = {"", "/../lib/ipcd"};
    char own[PATH_MAX];
    ssize_t length = readlink("/proc/self/exe", own, sizeof own - 1);
    if (length < 0)
        fail(MISUSED, "/proc/self/exe", strerror(errno));
    own[length] = 0;
    const char *folder = dirname(own);
    for (size_t i = 0; i < sizeof places / sizeof *places; i++) {
        snprintf(path, size, "%s%s/libipcd-preload.so", folder, places[i]);
        if (access(path, R_OK) == 0)
            return;
    }
    fail(MISUSED, path, "is not there");
}

static void set_preload(void)
{
    char library[2 * PATH_MAX], all[4 * PATH_MAX];
    const char *others = getenv("LD_PRELOAD");
    find_library(library, sizeof library);
    // The system parts the names at spaces and colons.
    if (strpbrk(library, " :") != NULL)
        fail(MISUSED, library, "has a space or a colon in its path");
    bool has_others = others != NULL && *others != 0;
    snprintf(all, sizeof all, "%s%s%s", library, has_others ? " " : "", has_others ? others : "");
    if (setenv("LD_PRELOAD", all, 1) < 0)
        fail(MISUSED, library, strerror(errno));
}

// What the words ask for. The path and the seconds are NULL if they are not given.
struct options {
    const char *socket;
    const char *seconds;
    bool has_segments;
    bool is_strict;
    bool is_checked;
};

// The value of an option, which is the next word or stands after a `=`; NULL if the word is another.
static const char *value_of(const char *option, int count, char **words, int *at)
{
    size_t length = strlen(option);
    if (strncmp(words[*at], option, length) != 0)
        return NULL;
    if (words[*at][length] == '=')
        return words[(*at)++] + length + 1;
    if (words[*at][length] != 0 || *at + 1 >= count)
        return NULL;
    *at += 2;
    return words[*at - 1];
}

// Reads the options: where the program stands among the words, or `count` if it does not.
static int read_options(int count, char **words, struct options *options)
{
    int at = 1;
    while (at < count && words[at][0] == '-') {
        const char *socket, *seconds;
        if (strcmp(words[at], "--") == 0)
            return at + 1;
        if (strcmp(words[at], "--strict") == 0) {
            options->is_strict = true;
            at++;
        } else if (strcmp(words[at], "--segments") == 0) {
            options->has_segments = true;
            at++;
        } else if (strcmp(words[at], "--check") == 0) {
            options->is_checked = true;
            at++;
        } else if ((socket = value_of("--socket", count, words, &at)) != NULL)
            options->socket = socket;
        else if ((seconds = value_of("--wait", count, words, &at)) != NULL)
            options->seconds = seconds;
        else
            return count;
    }
    return at;
}

static void set(const char *name, const char *value)
{
    if (setenv(name, value, 1) < 0)
        fail(MISUSED, name, strerror(errno));
}

// How long a call waits for a server: a number of seconds, up to a day.
static void set_wait(const char *seconds)
{
    char *rest;
    double number = strtod(seconds, &rest);
    if (rest == seconds || *rest != 0 || !(number >= 0 && number <= 86400))
        fail(MISUSED, seconds, "is no number of seconds from 0 to 86400");
    set("IPCD_WAIT", seconds);
}

int main(int count, char **words)
{
    struct options options = {.socket = getenv("IPCD_SOCKET")};
    if (count > 1 && strcmp(words[1], "--help") == 0) {
        print_usage(stdout);
        return 0;
    }
    int at = read_options(count, words, &options);
    if (at >= count) {
        print_usage(stderr);
        return MISUSED;
    }
    char path[PATH_MAX];
    if (!find_program(words[at], path, sizeof path))
        fail(NOT_FOUND, words[at], strerror(ENOENT));
    const char *why = why_not_redirected(path);
    if (why != NULL)
        fail(NOT_RUN, words[at], why);
    if (options.socket != NULL && *options.socket != 0)
        set_socket(options.socket);
    if (options.has_segments)
        set("IPCD_SEGMENTS", "1");
    if (options.is_strict)
        set("IPCD_STRICT", "1");
    if (options.seconds != NULL)
        set_wait(options.seconds);
    if (options.is_checked && !count_calls())
        fail(MISUSED, "--check", strerror(errno));
    set_preload();
    if (options.is_checked)
        follow_program(words[at]);
    execv(path, words + at);
    fail(NOT_RUN, words[at], strerror(errno));
}
