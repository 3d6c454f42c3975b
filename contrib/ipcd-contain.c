// The first process of a container: it removes a socket that no server listens to, starts the program, passes SIGTERM
// and SIGINT to it, and ends with it. The image of `make image` has it, since it has no shell.
//
//     ipcd-contain PROGRAM WORD...           the program, with these words
//     ipcd-contain --health PROGRAM DEVICE   whether a server has the device, and the device is fit: by `PROGRAM check`
#define _GNU_SOURCE
#include <errno.h>
#include <fcntl.h>
#include <signal.h>
#include <stdbool.h>
#include <stdio.h>
#include <string.h>
#include <sys/socket.h>
#include <sys/stat.h>
#include <sys/un.h>
#include <sys/wait.h>
#include <unistd.h>

enum { FAULT = 125, CANNOT_START = 127, SIGNALLED = 128 };

static int fail(const char *what)
{
    fprintf(stderr, "ipcd-contain: %s: %s\n", what, strerror(errno));
    return FAULT;
}

// A server leaves its socket when it ends, and the next is refused while it is there. One that listens is left alone.
static int remove_left_socket(const char *path)
{
    struct stat found;
    struct sockaddr_un address = {.sun_family = AF_UNIX};
    if (lstat(path, &found) < 0 || !S_ISSOCK(found.st_mode) || strlen(path) >= sizeof address.sun_path)
        return 0;
    strcpy(address.sun_path, path);
    int client = socket(AF_UNIX, SOCK_STREAM | SOCK_CLOEXEC, 0);
    if (client < 0)
        return fail("a socket");
    bool is_left = connect(client, (struct sockaddr *) &address, sizeof address) < 0 && errno == ECONNREFUSED;
    close(client);
    return is_left && unlink(path) < 0 ? fail(path) : 0;
}

static pid_t start(char **words, const sigset_t *mask, int output)
{
    pid_t child = fork();
    if (child != 0)
        return child;
    if (output >= 0 && dup2(output, STDOUT_FILENO) < 0)
        _exit(CANNOT_START);
    sigprocmask(SIG_SETMASK, mask, NULL);
    execv(words[0], words);
    fail(words[0]);
    _exit(CANNOT_START);
}

static int status_of(int status)
{
    return WIFSIGNALED(status) ? SIGNALLED + WTERMSIG(status) : WEXITSTATUS(status);
}

// Whatever else was left to the first process is waited for too. True once the program has ended.
static bool has_ended(pid_t program, int *status)
{
    pid_t ended;
    int found;
    while ((ended = waitpid(-1, &found, WNOHANG)) > 0)
        if (ended == program) {
            *status = found;
            return true;
        }
    return false;
}

static int contain(char **words)
{
    sigset_t awaited, before;
    int status, number;
    sigemptyset(&awaited);
    sigaddset(&awaited, SIGTERM);
    sigaddset(&awaited, SIGINT);
    sigaddset(&awaited, SIGCHLD);
    sigprocmask(SIG_BLOCK, &awaited, &before);
    pid_t program = start(words, &before, -1);
    if (program < 0)
        return fail(words[0]);
    while (!has_ended(program, &status)) {
        while ((number = sigwaitinfo(&awaited, NULL)) < 0 && errno == EINTR)
            continue;
        if (number == SIGTERM || number == SIGINT)
            kill(program, number);
    }
    return status_of(status);
}

// `check` says of a device that a server has that it is in use, and in the next line whether it is fit otherwise.
static int health(char *program, char *device)
{
    char *words[] = {program, "check", device, NULL};
    char said[4096];
    size_t size = 0;
    ssize_t more;
    int ends[2];
    sigset_t mask;
    sigemptyset(&mask);
    if (pipe2(ends, O_CLOEXEC) < 0)
        return fail("a pipe");
    if (start(words, &mask, ends[1]) < 0)
        return fail(program);
    close(ends[1]);
    while ((more = read(ends[0], said + size, sizeof said - 1 - size)) > 0)
        size += (size_t) more;
    said[size] = 0;
    fputs(said, stdout);
    bool is_served = strncmp(said, "device fault: it is in use", 26) == 0;
    return is_served && strstr(said, "\notherwise fit to be served") != NULL ? 0 : 1;
}

int main(int count, char **words)
{
    if (count == 4 && strcmp(words[1], "--health") == 0)
        return health(words[2], words[3]);
    if (count < 2) {
        fputs("usage: ipcd-contain PROGRAM [WORD]...\n       ipcd-contain --health PROGRAM DEVICE\n", stderr);
        return FAULT;
    }
    if (count > 4 && strcmp(words[2], "serve") == 0) {
        int fault = remove_left_socket(words[4]);
        if (fault != 0)
            return fault;
    }
    return contain(words + 1);
}
