// Sends a message and receives it again, so many times, as any program does; and the same by frames written by hand,
// for comparison. It prints the processor time of this process for a pair, in microseconds.
#define _GNU_SOURCE
#include <sys/ipc.h>
#include <sys/msg.h>
#include <sys/resource.h>
#include <sys/socket.h>
#include <sys/un.h>

#include "../wire.h"
#include "check.h"

static struct { long type; char text[8192]; } message = {.type = 1};
static unsigned char request[FRAME_BYTES], reply[FRAME_BYTES];

static double processor_time(void)
{
    struct rusage usage;
    CHECK(getrusage(RUSAGE_SELF, &usage) == 0);
    struct timeval user = usage.ru_utime, system = usage.ru_stime;
    return 1e6 * (double) (user.tv_sec + system.tv_sec) + (double) (user.tv_usec + system.tv_usec);
}

static void by_calls(int queue, size_t size, int pairs)
{
    for (int i = 0; i < pairs; i++) {
        CHECK(msgsnd(queue, &message, size, 0) == 0);
        CHECK(msgrcv(queue, &message, size, 0, 0) == (ssize_t) size);
    }
}

// Sends a request whose fields are written, and reads its reply, whose body has so many bytes, or more after HELLO.
static void exchange(int server, size_t fields, enum opcode opcode, size_t body)
{
    static uint32_t serial;
    write_number(request, 5 + fields, 4);
    write_number(request + 4, ++serial, 4);
    request[8] = (unsigned char) opcode;
    size_t size = REQUEST_HEAD + fields, come = 0;
    CHECK(send(server, request, size, MSG_NOSIGNAL) == (ssize_t) size);
    while (come < REPLY_HEAD || come < 4 + (size_t) read_u32(reply)) {
        ssize_t more = recv(server, reply + come, sizeof reply - come, 0);
        CHECK(more > 0);
        come += (size_t) more;
    }
    CHECK(come == REPLY_HEAD + body || (opcode == HELLO && come > REPLY_HEAD + body));
    CHECK(read_u32(reply + 4) == serial && read_u16(reply + 8) == 0);
}

static void by_frames(int server, int queue, size_t size, int pairs)
{
    for (int i = 0; i < pairs; i++) {
        write_number(request + 9, (uint64_t) queue, 4);
        write_number(request + 13, 0, 4);
        write_number(request + 17, 1, 8);
        memcpy(request + 25, message.text, size);
        exchange(server, 16 + size, MSGSND, 0);
        write_number(request + 9, (uint64_t) queue, 4);
        write_number(request + 13, 0, 4);
        write_number(request + 17, size, 4);
        write_number(request + 21, 0, 8);
        exchange(server, 20, MSGRCV, 8 + size);
        memcpy(message.text, reply + 18, size);
    }
}

static int connect_by_hand(void)
{
    struct sockaddr_un address = {.sun_family = AF_UNIX};
    strncpy(address.sun_path, getenv("IPCD_SOCKET"), sizeof address.sun_path - 1);
    int server = socket(AF_UNIX, SOCK_STREAM, 0);
    CHECK(connect(server, (struct sockaddr *) &address, sizeof address) == 0);
    write_number(request + 9, 0, 8);
    exchange(server, 8, HELLO, 4);
    return server;
}

int main(int count, char **words)
{
    CHECK(count == 4);
    size_t size = (size_t) atoi(words[2]);
    int pairs = atoi(words[3]), server = -1, queue;
    CHECK(size <= sizeof message.text);
    if (strcmp(words[1], "frames") == 0) {
        server = connect_by_hand();
        write_number(request + 9, IPC_PRIVATE, 4);
        write_number(request + 13, 0600, 4);
        exchange(server, 8, MSGGET, 4);
        queue = (int) read_u32(reply + REPLY_HEAD);
    } else
        queue = msgget(IPC_PRIVATE, 0600);
    double before = processor_time();
    if (server >= 0)
        by_frames(server, queue, size, pairs);
    else
        by_calls(queue, size, pairs);
    printf("%.3f\n", (processor_time() - before) / pairs);
    write_number(request + 9, (uint64_t) queue, 4);
    if (server >= 0)
        exchange(server, 4, MSG_IPC_RMID, 0);
    else
        CHECK(msgctl(queue, IPC_RMID, NULL) == 0);
    return 0;
}
