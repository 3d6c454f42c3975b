/* A client that sends numbered messages, and says on standard output which were answered.
 *
 *     sender SOCKET FIRST MOST
 *
 * It first takes what a queue has, and prints `found N` for each message and `drained`. Then it sends the numbers from
 * FIRST on, four at a time, and prints `sent N` when N is answered. When the queue has MOST messages, it prints
 * `taking`, takes four, and prints `took N` of each that it was given. What it prints has left the machine before its
 * next request. docs/PROTOCOL.md has the frames.
 */
#include <stdint.h>
#include <stdio.h>
#include <stdlib.h>
#include <string.h>
#include <sys/socket.h>
#include <sys/un.h>
#include <termios.h>
#include <unistd.h>

enum { HELLO = 0x01, MSGGET = 0x0a, MSGSND = 0x0b, MSGRCV = 0x0c, NOWAIT = 0x800, CREATE = 0x200 | 0600 };
enum { ENOMSG_NUMBER = 42, AHEAD = 4, TAKEN = 40, TEXT = 16 };

static int server;
static unsigned char answer[256];

static void fails(const char *what)
{
	printf("sender fails: %s\n", what);
	exit(1);
}

static unsigned char *put(unsigned char *at, uint64_t value, int size)
{
	while (size--)
		*at++ = (unsigned char)(value >> 8 * size);
	return at;
}

static uint32_t get(const unsigned char *at, int size)
{
	uint32_t value = 0;
	while (size--)
		value = value << 8 | *at++;
	return value;
}

static void ask(unsigned char *frame, unsigned char *end, uint32_t serial)
{
	put(frame, (uint64_t)(end - frame - 4), 4);
	put(frame + 4, serial, 4);
	if (write(server, frame, (size_t)(end - frame)) != end - frame)
		fails("a write");
}

static void take(unsigned char *to, size_t size)
{
	while (size) {
		ssize_t came = read(server, to, size);
		if (came <= 0)
			fails("a read");
		to += came;
		size -= (size_t)came;
	}
}

/* The error of the next reply. Its body is in `answer` from the sixth byte on. */
static uint32_t reply(void)
{
	unsigned char head[4];
	take(head, 4);
	uint32_t size = get(head, 4);
	if (size < 6 || size > sizeof answer)
		fails("a frame");
	memset(answer, 0, sizeof answer);
	take(answer, size);
	return get(answer + 4, 2);
}

static void begin(const char *path)
{
	struct sockaddr_un name = {.sun_family = AF_UNIX};
	unsigned char frame[64], *end;
	strncpy(name.sun_path, path, sizeof name.sun_path - 1);
	server = socket(AF_UNIX, SOCK_STREAM, 0);
	if (server < 0 || connect(server, (struct sockaddr *)&name, sizeof name))
		fails("a connection");
	end = put(put(put(frame + 8, HELLO, 1), 0, 4), 0, 4);
	ask(frame, end, 1);
	if (reply())
		fails("HELLO");
}

static uint32_t queue_of(uint32_t key)
{
	unsigned char frame[64], *end = put(put(put(frame + 8, MSGGET, 1), key, 4), CREATE, 4);
	ask(frame, end, 2);
	if (reply())
		fails("msgget");
	return get(answer + 6, 4);
}

static void ask_for_one(uint32_t queue)
{
	unsigned char frame[64];
	ask(frame, put(put(put(put(put(frame + 8, MSGRCV, 1), queue, 4), NOWAIT, 4), TEXT, 4), 0, 8), 3);
}

/* What was printed leaves the machine. */
static void print_all(void)
{
	fflush(stdout);
	tcdrain(STDOUT_FILENO);
}

/* Takes all messages, some at a time. */
static void drain(uint32_t queue)
{
	for (uint32_t error = 0; !error;) {
		for (int i = 0; i < TAKEN; i++)
			ask_for_one(queue);
		for (int i = 0; i < TAKEN; i++) {
			uint32_t this = reply();
			if (!this)
				printf("found %s\n", (char *)answer + 14);
			else if (this != ENOMSG_NUMBER)
				fails("msgrcv");
			error |= this;
		}
	}
	printf("drained\n");
	print_all();
}

static void send_some(uint32_t queue, unsigned long number)
{
	for (unsigned long i = 0; i < AHEAD; i++) {
		unsigned char frame[64], *end = put(put(put(put(frame + 8, MSGSND, 1), queue, 4), NOWAIT, 4), 1, 8);
		memset(end, 0, TEXT);
		snprintf((char *)end, TEXT, "%lu", number + i);
		ask(frame, end + TEXT, 4);
	}
	for (unsigned long i = 0; i < AHEAD; i++) {
		if (reply())
			fails("msgsnd");
		printf("sent %lu\n", number + i);
	}
	print_all();
}

static void take_some(uint32_t queue)
{
	printf("taking\n");
	print_all();
	for (int i = 0; i < AHEAD; i++)
		ask_for_one(queue);
	for (int i = 0; i < AHEAD; i++) {
		if (reply())
			fails("msgrcv");
		printf("took %s\n", (char *)answer + 14);
	}
	print_all();
}

int main(int count, char **words)
{
	if (count != 4)
		fails("it needs a socket and two numbers");
	unsigned long number = strtoul(words[2], NULL, 10), most = strtoul(words[3], NULL, 10);
	begin(words[1]);
	uint32_t queue = queue_of(77);
	drain(queue);
	for (unsigned long held = 0;; number += AHEAD) {
		send_some(queue, number);
		held += AHEAD;
		if (held >= most) {
			take_some(queue);
			held -= AHEAD;
		}
	}
}
