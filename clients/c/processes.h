// Which process of the system is which of the server: entries in a folder beside the socket.
#ifndef IPCD_PROCESSES_H
#define IPCD_PROCESSES_H

#include <stddef.h>
#include <stdint.h>
#include <sys/types.h>

// The life of a server, where a number of a process is another's after a restart: its process, as the system knows it.
// With a device of version 2 no number comes again, and both are 0. Of a life that is not known `server` alone is 0.
struct life {
    long server;
    unsigned long long began;
};

// That of the server at the other end.
__attribute__((visibility("hidden"))) struct life life_of(int socket);

// Says that the calling process is this one of the server, and says so no more. They leave errno as it was.
__attribute__((visibility("hidden"))) void tell_process(const char *socket, const struct life *life, uint32_t pid);
__attribute__((visibility("hidden"))) void no_more(const char *socket, const struct life *life, uint32_t pid);

// The system's number of a process of the server that is alive, else the server's number.
__attribute__((visibility("hidden"))) pid_t system_pid(const char *socket, const struct life *life, uint32_t pid);

// Which processes have an object open that has a name: each says so by an entry, beside those above, of a hash of the
// name and a token. It has a number above 0, or 0 if it could not be made. They leave errno as it was.
enum { SEMAPHORE_ENTRY = 's', QUEUE_ENTRY = 'q' };
__attribute__((visibility("hidden"))) uint32_t tell_object(
    const char *socket, char kind, uint64_t hash, uint64_t token);
__attribute__((visibility("hidden"))) void no_more_object(
    const char *socket, char kind, uint64_t hash, uint32_t number);

// How many such entries there are with another token, of processes that are alive or may be.
__attribute__((visibility("hidden"))) size_t others_of_object(
    const char *socket, char kind, uint64_t hash, uint64_t token);

#endif
