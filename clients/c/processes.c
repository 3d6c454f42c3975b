// Which process of the system is which of the server. The folder is SOCKET.pids, of mode 01777; an entry is a
// symbolic link whose name is the server's number, and whose text is the system's number and when that process began.
// It counts if the process is alive, began then, and is of the owner of the entry, who was its user at its HELLO; one
// of root's counts whoever the process is now. Where numbers come again, the name has also the system's number of the
// server and when that began, with dots between: no entry of an earlier life counts, or is in the way. Named semaphores
// and POSIX queues have entries there too: an `s` or a `q` and the hash of its name, the system's number of the process
// that has it open, and a number of the entry, with dots between; the text is as above, then a token and the namespace
// in which the process has its number. An `m` begins what segment_files.c has,
// an `n` and a `k` what named_files.c has.
#define _GNU_SOURCE
#include "processes.h"

#include <dirent.h>
#include <errno.h>
#include <fcntl.h>
#include <signal.h>
#include <stdatomic.h>
#include <stdbool.h>
#include <stdio.h>
#include <stdlib.h>
#include <string.h>
#include <sys/socket.h>
#include <sys/stat.h>
#include <unistd.h>

enum { LONGEST = 320, SWEEP_EACH = 32 };

// Whether entries can be told from those of other lives.
static bool is_known(const struct life *life)
{
    return life->server != 0 || life->began == 0;
}

static void name_entry(char *path, const char *socket, const struct life *life, uint32_t pid)
{
    if (life->server == 0)
        snprintf(path, LONGEST, "%s.pids/%u", socket, pid);
    else
        snprintf(path, LONGEST, "%s.pids/%u.%ld.%llu", socket, pid, life->server, life->began);
}

// Reads a file of a process below /proc.
static bool read_of_process(long pid, const char *name, char *text, size_t size)
{
    char path[64];
    snprintf(path, sizeof path, "/proc/%ld/%s", pid, name);
    int file = open(path, O_RDONLY | O_CLOEXEC);
    if (file < 0)
        return false;
    ssize_t come = read(file, text, size - 1);
    close(file);
    text[come < 0 ? 0 : come] = 0;
    return true;
}

// When a process began, in ticks since the system did; 0 if it is none.
static unsigned long long beginning(long pid)
{
    char text[1024];
    if (!read_of_process(pid, "stat", text, sizeof text))
        return 0;
    char *at = strrchr(text, ')');
    for (int field = 2; at != NULL && field < 22; field++)
        at = strchr(at + 1, ' ');
    return at == NULL ? 0 : strtoull(at, NULL, 10);
}

// One of another namespace of processes has no number here, and one that is gone no beginning.
struct life life_of(int socket)
{
    struct ucred peer = {.pid = 0};
    socklen_t size = sizeof peer;
    int saved = errno;
    bool is_there = getsockopt(socket, SOL_SOCKET, SO_PEERCRED, &peer, &size) == 0 && peer.pid > 0;
    unsigned long long began = is_there ? beginning(peer.pid) : 0;
    errno = saved;
    return began == 0 ? (struct life){0, 1} : (struct life){peer.pid, began};
}

// Whether an entry is of a life that has ended.
static bool is_of_the_past(const char *name)
{
    unsigned pid;
    struct life life;
    return sscanf(name, "%u.%ld.%llu", &pid, &life.server, &life.began) == 3 && beginning(life.server) != life.began;
}

// Whether a process may act as this user: it is its real, effective or saved one. A process may go to and fro between
// these, and be another one now than at its HELLO.
static bool is_of_user(long pid, uid_t user)
{
    char text[4096];
    unsigned real, effective, saved;
    if (!read_of_process(pid, "status", text, sizeof text))
        return false;
    const char *at = strstr(text, "\nUid:");
    return at != NULL && sscanf(at, "\nUid: %u %u %u", &real, &effective, &saved) == 3 &&
        (real == user || effective == user || saved == user);
}

// The living process that an entry names, or 0.
static long named_by(const char *path)
{
    char text[64];
    struct stat entry;
    ssize_t size = readlink(path, text, sizeof text - 1);
    if (size <= 0 || lstat(path, &entry) < 0)
        return 0;
    text[size] = 0;
    char *rest;
    long pid = strtol(text, &rest, 10);
    if (pid <= 0 || *rest != ' ' || (entry.st_uid != 0 && !is_of_user(pid, entry.st_uid)))
        return 0;
    unsigned long long began = strtoull(rest, NULL, 10);
    return began != 0 && began == beginning(pid) ? pid : 0;
}

// The namespace of the numbers of processes, or 0.
static unsigned long long own_namespace(void)
{
    struct stat status;
    return stat("/proc/self/ns/pid", &status) == 0 ? (unsigned long long) status.st_ino : 0;
}

// Whether an entry is of a process that is alive, or may be, and has another token. One of a dead process is removed.
static bool is_of_another(const char *path, uint64_t token)
{
    char text[128];
    ssize_t size = readlink(path, text, sizeof text - 1);
    if (size <= 0)
        return false;
    text[size] = 0;
    long pid;
    unsigned long long began, of_entry, space;
    if (sscanf(text, "%ld %llu %llx %llu", &pid, &began, &of_entry, &space) != 4 || pid <= 0)
        return false;
    if (of_entry == token)
        return false;
    if (space != own_namespace())
        return true;
    unsigned long long begins = beginning(pid);
    bool is_dead = begins != 0 ? begins != began : kill((pid_t) pid, 0) < 0 && errno == ESRCH;
    if (is_dead)
        unlink(path);
    return !is_dead;
}

// Removes the entries of processes that were killed, and of earlier lives, as far as they are the caller's.
static void sweep(const char *socket)
{
    char path[LONGEST + 256];
    snprintf(path, sizeof path, "%s.pids", socket);
    DIR *folder = opendir(path);
    if (folder == NULL)
        return;
    for (struct dirent *entry; (entry = readdir(folder)) != NULL;) {
        snprintf(path, sizeof path, "%s.pids/%s", socket, entry->d_name);
        bool is_process = strtoul(entry->d_name, NULL, 10) != 0;
        if (is_process && (named_by(path) == 0 || is_of_the_past(entry->d_name)))
            unlink(path);
        if (entry->d_name[0] == SEMAPHORE_ENTRY || entry->d_name[0] == QUEUE_ENTRY)
            is_of_another(path, 0);
    }
    closedir(folder);
}

static void make_folder(const char *socket)
{
    char path[LONGEST];
    snprintf(path, sizeof path, "%s.pids", socket);
    if (mkdir(path, 01777) == 0)
        chmod(path, 01777);
}

// Makes an entry, or replaces one that has its name.
static bool make_entry(const char *path, const char *text)
{
    return symlink(text, path) == 0 || (errno == EEXIST && unlink(path) == 0 && symlink(text, path) == 0);
}

void tell_process(const char *socket, const struct life *life, uint32_t pid)
{
    int saved = errno;
    char path[LONGEST], text[64];
    make_folder(socket);
    snprintf(text, sizeof text, "%ld %llu", (long) getpid(), beginning(getpid()));
    name_entry(path, socket, life, pid);
    if (is_known(life))
        make_entry(path, text);
    errno = saved;
}

void no_more(const char *socket, const struct life *life, uint32_t pid)
{
    int saved = errno;
    char path[LONGEST];
    name_entry(path, socket, life, pid);
    if (is_known(life) && named_by(path) == getpid())
        unlink(path);
    // The first of each life is one of them.
    if (pid % SWEEP_EACH == 1)
        sweep(socket);
    errno = saved;
}

pid_t system_pid(const char *socket, const struct life *life, uint32_t pid)
{
    int saved = errno;
    char path[LONGEST];
    name_entry(path, socket, life, pid);
    long found = pid == 0 || !is_known(life) ? 0 : named_by(path);
    errno = saved;
    return found == 0 ? (pid_t) pid : (pid_t) found;
}

static void name_object(char *path, const char *socket, char kind, uint64_t hash, uint32_t number)
{
    long pid = getpid();
    snprintf(path, LONGEST, "%s.pids/%c%016llx.%ld.%u", socket, kind, (unsigned long long) hash, pid, number);
}

uint32_t tell_object(const char *socket, char kind, uint64_t hash, uint64_t token)
{
    static atomic_uint last;
    int saved = errno;
    char path[LONGEST], text[128];
    uint32_t number = ++last;
    make_folder(socket);
    name_object(path, socket, kind, hash, number);
    snprintf(text, sizeof text, "%ld %llu %llx %llu", (long) getpid(), beginning(getpid()), (unsigned long long) token,
             own_namespace());
    bool is_made = make_entry(path, text);
    errno = saved;
    return is_made ? number : 0;
}

void no_more_object(const char *socket, char kind, uint64_t hash, uint32_t number)
{
    int saved = errno;
    char path[LONGEST];
    name_object(path, socket, kind, hash, number);
    unlink(path);
    errno = saved;
}

size_t others_of_object(const char *socket, char kind, uint64_t hash, uint64_t token)
{
    int saved = errno;
    char path[LONGEST + 256], begin[32];
    snprintf(begin, sizeof begin, "%c%016llx.", kind, (unsigned long long) hash);
    snprintf(path, sizeof path, "%s.pids", socket);
    DIR *folder = opendir(path);
    size_t count = folder == NULL ? SIZE_MAX : 0;
    for (struct dirent *entry; folder != NULL && (entry = readdir(folder)) != NULL;) {
        if (strncmp(entry->d_name, begin, strlen(begin)) != 0)
            continue;
        snprintf(path, sizeof path, "%s.pids/%s", socket, entry->d_name);
        count += is_of_another(path, token);
    }
    if (folder != NULL)
        closedir(folder);
    errno = saved;
    return count;
}
