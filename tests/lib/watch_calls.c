/* A library that writes down calls of the system in order, and can refuse one. It is loaded before a program's own:
 *
 *     cc -shared -fPIC -o watch_calls.so watch_calls.c
 *     WATCH_LOG=log WATCH_FAIL="pwrite 3 5" LD_PRELOAD=./watch_calls.so PROGRAM
 *
 * Each line of the log is a call that has ended: its name, its descriptor, how many bytes it was given (of epoll_wait,
 * how long it may take), its place in the file or 0, its result or less the error number, and in hexadecimal as many of
 * the bytes that it moved as WATCH_BYTES says, or `-`. Before an epoll_wait, which may take long, is an epoll_enter.
 *
 * WATCH_FAIL names a call, which one of them, and an error number; with the number 0 it is a pwrite that takes half of
 * its bytes. They count from the start; if WATCH_TEXT is given, from the recv on that has it, and if WATCH_PLACE is
 * given, from the first pwrite on at this place of a file or after it. The programs of this repository have one thread.
 *
 * WATCH_RECV, WATCH_SEND, WATCH_READ and WATCH_WRITE answer the calls of this name by a list of numbers, such as
 * "2 5 -11 65536". The first says whose calls they are: of recv and send the connection, counted from 1 by the accept4
 * that have given one, or -1 for each of them; of read and write the descriptor. Each further number is for one call,
 * and the last one for all that come after: how many bytes it moves at most, or less the error number if it is refused.
 * With 0 it moves none, which is the end of what comes in.
 */
#define _GNU_SOURCE
#include <dlfcn.h>
#include <errno.h>
#include <fcntl.h>
#include <stdio.h>
#include <stdlib.h>
#include <string.h>
#include <sys/epoll.h>
#include <sys/socket.h>
#include <sys/syscall.h>
#include <unistd.h>

static int log_file = -1, begun, refused_error;
static unsigned long bytes_most, calls, refused_call;
static char refused_name[32];

enum { FILES = 1024 };

/* The answers to the calls of one name, and how many of them each file has had. */
struct answers {
	long whose, each[64];
	int count, place[FILES];
};

static struct answers of_recv, of_send, of_read, of_write;
static int connections, connection_of[FILES];

static void fill(struct answers *them, const char *variable)
{
	char *rest = getenv(variable), *from;
	if (!rest)
		return;
	them->whose = strtol(rest, &rest, 10);
	for (from = rest; them->count < 64; from = rest) {
		long answer = strtol(from, &rest, 10);
		if (rest == from)
			break;
		them->each[them->count++] = answer;
	}
	if (*rest)
		abort();
}

__attribute__((constructor)) static void begin(void)
{
	const char *word = getenv("WATCH_LOG");
	if (word)
		log_file = open(word, O_WRONLY | O_CREAT | O_APPEND | O_CLOEXEC, 0600);
	if ((word = getenv("WATCH_BYTES")))
		bytes_most = strtoul(word, NULL, 10);
	if ((word = getenv("WATCH_FAIL")) &&
	    sscanf(word, "%31s %lu %d", refused_name, &refused_call, &refused_error) != 3)
		abort();
	begun = !getenv("WATCH_TEXT") && !getenv("WATCH_PLACE");
	fill(&of_recv, "WATCH_RECV");
	fill(&of_send, "WATCH_SEND");
	fill(&of_read, "WATCH_READ");
	fill(&of_write, "WATCH_WRITE");
}

/* Counts a call, and tells whether it is the one to refuse. */
static int is_refused(const char *name)
{
	return begun && !strcmp(name, refused_name) && ++calls == refused_call;
}

static int number_of(int file)
{
	return file >= 0 && file < FILES ? connection_of[file] : 0;
}

/* How many of so many bytes the next call of a file moves at most, or less the error number. */
static long most_of(struct answers *them, int file, long whose, size_t size)
{
	if (!them->count || (them->whose != whose && them->whose != -1) || file < 0 || file >= FILES)
		return (long)size;
	int *place = &them->place[file];
	long answer = them->each[*place];
	if (*place + 1 < them->count)
		++*place;
	return answer < (long)size ? answer : (long)size;
}

/* Writes a call down, and gives its result back. */
static long note(const char *name, int file, long size, long place, long result, const void *data)
{
	static char line[100 + 2 * 65536];
	int error = errno;
	unsigned long most = data && result > 0 ? (unsigned long)result : 0;
	if (most > bytes_most)
		most = bytes_most;
	if (most > 65536)
		most = 65536;
	int at = sprintf(line, "%s %d %ld %ld %ld ", name, file, size, place, result < 0 ? -(long)error : result);
	if (!most)
		line[at++] = '-';
	for (unsigned long i = 0; i < most; i++, at += 2) {
		line[at] = "0123456789abcdef"[((const unsigned char *)data)[i] >> 4];
		line[at + 1] = "0123456789abcdef"[((const unsigned char *)data)[i] & 15];
	}
	line[at++] = '\n';
	if (log_file >= 0 && syscall(SYS_write, log_file, line, (size_t)at) != at)
		abort();
	errno = error;
	return result;
}

#define NEXT(name) static __typeof__(name) *next; if (!next) next = (__typeof__(name) *)dlsym(RTLD_NEXT, #name)
#define REFUSE (errno = refused_error, -1)
/* The result of a call that moves so many bytes at most, or is refused, or moves none. */
#define MOVE(most, call) ((most) < 0 ? (errno = (int)-(most), -1) : (most) == 0 ? 0 : (call))

ssize_t pwrite(int file, const void *data, size_t size, off_t place)
{
	NEXT(pwrite);
	const char *from = getenv("WATCH_PLACE");
	if (from && place >= atol(from))
		begun = 1;
	if (!is_refused("pwrite"))
		return note("pwrite", file, size, place, next(file, data, size, place), data);
	return note("pwrite", file, size, place, refused_error ? REFUSE : next(file, data, size / 2, place), data);
}

ssize_t pread(int file, void *data, size_t size, off_t place)
{
	NEXT(pread);
	return note("pread", file, size, place, is_refused("pread") ? REFUSE : next(file, data, size, place), data);
}

#define OF_FILE(name) int name(int file) \
{ \
	NEXT(name); \
	return note(#name, file, 0, 0, is_refused(#name) ? REFUSE : next(file), NULL); \
}

OF_FILE(fdatasync)
OF_FILE(fsync)
OF_FILE(close)

int ftruncate(int file, off_t length)
{
	NEXT(ftruncate);
	return note("ftruncate", file, 0, length, is_refused("ftruncate") ? REFUSE : next(file, length), NULL);
}

int accept4(int file, struct sockaddr *restrict name, socklen_t *restrict size, int flags)
{
	NEXT(accept4);
	int result = is_refused("accept4") ? REFUSE : next(file, name, size, flags);
	if (result >= 0 && result < FILES) {
		connection_of[result] = ++connections;
		of_recv.place[result] = of_send.place[result] = 0;
	}
	return note("accept4", file, 0, 0, result, NULL);
}

int epoll_wait(int file, struct epoll_event *events, int most, int longest)
{
	NEXT(epoll_wait);
	note("epoll_enter", file, longest, 0, 0, NULL);
	int result = is_refused("epoll_wait") ? REFUSE : next(file, events, most, longest);
	return note("epoll_wait", file, longest, 0, result, NULL);
}

ssize_t recv(int file, void *data, size_t size, int flags)
{
	NEXT(recv);
	long most = most_of(&of_recv, file, number_of(file), size);
	ssize_t came = is_refused("recv") ? REFUSE : MOVE(most, next(file, data, most, flags));
	const char *text = getenv("WATCH_TEXT");
	if (text && came > 0 && memmem(data, came, text, strlen(text)))
		begun = 1;
	return note("recv", file, size, 0, came, data);
}

ssize_t send(int file, const void *data, size_t size, int flags)
{
	NEXT(send);
	long most = most_of(&of_send, file, number_of(file), size);
	ssize_t sent = is_refused("send") ? REFUSE : MOVE(most, next(file, data, most, flags));
	return note("send", file, size, 0, sent, data);
}

ssize_t read(int file, void *data, size_t size)
{
	NEXT(read);
	long most = most_of(&of_read, file, file, size);
	return note("read", file, size, 0, is_refused("read") ? REFUSE : MOVE(most, next(file, data, most)), data);
}

ssize_t write(int file, const void *data, size_t size)
{
	NEXT(write);
	long most = most_of(&of_write, file, file, size);
	return note("write", file, size, 0, is_refused("write") ? REFUSE : MOVE(most, next(file, data, most)), data);
}
