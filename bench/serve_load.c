/* A load on a server: so many clients with so many requests in flight each, for so many seconds. Each client sends
   messages of 64 bytes and receives them again, in turns, under a type of its own, on one of 30 queues; with `locks` it
   takes a semaphore of its own of one set and gives it back, in turns, with SEM_UNDO. It tests every byte of every
   reply, and prints how many replies came, and in how many seconds. If REQUESTS is given, each client makes so many
   requests, and the load ends when all are answered; it fails if the seconds are over before.

       serve_load SOCKET CLIENTS AHEAD SECONDS messages|locks [REQUESTS] */
#define _GNU_SOURCE
#include <endian.h>
#include <stdint.h>
#include <stdio.h>
#include <stdlib.h>
#include <string.h>
#include <sys/epoll.h>
#include <sys/socket.h>
#include <sys/un.h>
#include <time.h>
#include <unistd.h>

enum { TEXT = 64, QUEUES = 30, MOST_CLIENTS = 64, MOST_AHEAD = 64, ROOM = 1 << 14 };

struct frame {
	size_t size;
	unsigned char bytes[128];
};

/* The requests of a client are numbered from 0, and have that number and 1 as their serial. Even ones send or take. */
struct client {
	int socket;
	struct frame request[2], reply[2];
	uint32_t asked, answered;
	unsigned char input[ROOM];
	size_t held;
};

static struct client clients[MOST_CLIENTS];

/* How many requests each client makes. */
static uint32_t most_requests = UINT32_MAX;

static void die(const char *text)
{
	fprintf(stderr, "serve_load: %s\n", text);
	exit(1);
}

static void put(struct frame *frame, const void *bytes, size_t size)
{
	memcpy(frame->bytes + frame->size, bytes, size);
	frame->size += size;
}

static void put2(struct frame *frame, uint16_t number)
{
	number = htobe16(number);
	put(frame, &number, 2);
}

static void put4(struct frame *frame, uint32_t number)
{
	number = htobe32(number);
	put(frame, &number, 4);
}

static void put8(struct frame *frame, uint64_t number)
{
	number = htobe64(number);
	put(frame, &number, 8);
}

/* An empty frame: length and serial are set later. */
static struct frame request(unsigned char opcode)
{
	struct frame frame = { .size = 8 };
	put(&frame, &opcode, 1);
	return frame;
}

static struct frame reply(void)
{
	return (struct frame){ .size = 10 };
}

static void finish(struct frame *frame, uint32_t serial)
{
	uint32_t length = htobe32(frame->size - 4);
	serial = htobe32(serial);
	memcpy(frame->bytes, &length, 4);
	memcpy(frame->bytes + 4, &serial, 4);
}

/* Sends a request, and waits for its reply, whose body begins with so many bytes. That to HELLO may have more. */
static void ask(struct client *client, struct frame *frame, void *body, size_t size)
{
	unsigned char head[10], rest[128];
	uint32_t length;
	finish(frame, 1);
	if (send(client->socket, frame->bytes, frame->size, 0) != (ssize_t)frame->size)
		die("a request cannot be sent");
	if (recv(client->socket, head, sizeof head, MSG_WAITALL) != sizeof head || head[8] || head[9])
		die("a first request is refused");
	memcpy(&length, head, 4);
	length = be32toh(length) - 6;
	if (length < size || length > sizeof rest)
		die("a first reply has another size");
	if (length > 0 && recv(client->socket, rest, length, MSG_WAITALL) != (ssize_t)length)
		die("the server has ended a connection");
	memcpy(body, rest, size);
}

/* The same, and the body is a number. */
static uint32_t ask_number(struct client *client, struct frame *frame)
{
	uint32_t number;
	ask(client, frame, &number, 4);
	return be32toh(number);
}

/* An operation on a semaphore, with SEM_UNDO and without a limit of time. */
static struct frame semop(uint32_t set, int number, int what)
{
	struct frame frame = request(0x15);
	put4(&frame, set);
	put8(&frame, UINT64_MAX);
	put2(&frame, number);
	put2(&frame, what);
	put2(&frame, 0x1000);
	return frame;
}

/* Its semaphore is free, and it will take it and give it back. */
static void start_locks(struct client *client, int number)
{
	struct frame semget = request(0x14), setval = request(0x1a);
	uint32_t set;

	put4(&semget, 1);
	put4(&semget, MOST_CLIENTS);
	put4(&semget, 0x380);
	set = ask_number(client, &semget);
	put4(&setval, set);
	put4(&setval, number);
	put4(&setval, 1);
	ask(client, &setval, NULL, 0);
	client->request[0] = semop(set, number, -1);
	client->request[1] = semop(set, number, 1);
	client->reply[0] = reply();
	client->reply[1] = reply();
}

/* It will send messages to its queue, and receive them. */
static void start_messages(struct client *client, int number)
{
	char text[TEXT];
	struct frame msgget = request(0x0a);
	uint32_t queue;

	put4(&msgget, 1 + number % QUEUES);
	put4(&msgget, 0x380);
	queue = ask_number(client, &msgget);

	memset(text, 'a' + number % 26, TEXT);
	client->request[0] = request(0x0b);
	put4(&client->request[0], queue);
	put4(&client->request[0], 0x800);
	put8(&client->request[0], 1 + number);
	put(&client->request[0], text, TEXT);
	client->request[1] = request(0x0c);
	put4(&client->request[1], queue);
	put4(&client->request[1], 0x800);
	put4(&client->request[1], TEXT);
	put8(&client->request[1], 1 + number);
	client->reply[0] = reply();
	client->reply[1] = reply();
	put8(&client->reply[1], 1 + number);
	put(&client->reply[1], text, TEXT);
}

static void start(struct client *client, const struct sockaddr_un *address, int number, int locks)
{
	struct frame hello = request(0x01);

	client->socket = socket(AF_UNIX, SOCK_STREAM, 0);
	if (connect(client->socket, (const struct sockaddr *)address, sizeof *address) != 0)
		die("no server is there");
	put4(&hello, 1000);
	put4(&hello, 100);
	ask_number(client, &hello);
	if (locks)
		start_locks(client, number);
	else
		start_messages(client, number);
}

/* Sends so many more requests at once, or as many as it may still make. */
static void ask_more(struct client *client, uint32_t count)
{
	unsigned char bytes[MOST_AHEAD * sizeof client->request[0].bytes];
	size_t size = 0;
	if (count > most_requests - client->asked)
		count = most_requests - client->asked;
	while (count-- > 0) {
		struct frame *frame = &client->request[client->asked++ % 2];
		finish(frame, client->asked);
		memcpy(bytes + size, frame->bytes, frame->size);
		size += frame->size;
	}
	if (send(client->socket, bytes, size, 0) != (ssize_t)size)
		die("requests cannot be sent");
}

/* Takes the replies that are there, and answers how many. */
static int take(struct client *client)
{
	ssize_t got = recv(client->socket, client->input + client->held, ROOM - client->held, 0);
	size_t at = 0;
	int count = 0;

	if (got <= 0)
		die("the server has ended a connection");
	client->held += got;
	for (;;) {
		struct frame *frame = &client->reply[client->answered % 2];
		if (client->held - at < frame->size)
			break;
		finish(frame, client->answered + 1);
		if (memcmp(client->input + at, frame->bytes, frame->size) != 0)
			die("a reply is not the one that is wanted");
		at += frame->size;
		client->answered++;
		count++;
	}
	client->held -= at;
	memmove(client->input, client->input + at, client->held);
	return count;
}

static double now(void)
{
	struct timespec time;
	clock_gettime(CLOCK_MONOTONIC, &time);
	return time.tv_sec + time.tv_nsec / 1e9;
}

int main(int argc, char **argv)
{
	struct sockaddr_un address = { .sun_family = AF_UNIX };
	struct epoll_event events[MOST_CLIENTS];
	int many, ahead, locks, poll, i;
	double begin, seconds;
	long replies = 0;

	if (argc < 6 || argc > 7 || strlen(argv[1]) >= sizeof address.sun_path)
		die("usage: serve_load SOCKET CLIENTS AHEAD SECONDS messages|locks [REQUESTS]");
	strcpy(address.sun_path, argv[1]);
	many = atoi(argv[2]);
	ahead = atoi(argv[3]);
	locks = strcmp(argv[5], "locks") == 0;
	if (argc == 7)
		most_requests = atoi(argv[6]);
	if (many < 1 || many > MOST_CLIENTS || ahead < 1 || ahead > MOST_AHEAD)
		die("so many are not possible");
	poll = epoll_create1(0);
	for (i = 0; i < many; i++) {
		struct epoll_event event = { EPOLLIN, { .ptr = &clients[i] } };
		start(&clients[i], &address, i, locks);
		if (epoll_ctl(poll, EPOLL_CTL_ADD, clients[i].socket, &event) != 0)
			die("a client cannot be waited for");
	}
	begin = now();
	for (i = 0; i < many; i++)
		ask_more(&clients[i], ahead);
	do {
		int ready = epoll_wait(poll, events, MOST_CLIENTS, 10000);
		if (ready <= 0)
			die("no reply for 10 seconds");
		for (i = 0; i < ready; i++) {
			int count = take(events[i].data.ptr);
			replies += count;
			ask_more(events[i].data.ptr, count);
		}
		seconds = now() - begin;
	} while (seconds < atof(argv[4]) && replies < (long)most_requests * many);
	if (argc == 7 && replies < (long)most_requests * many)
		die("not every request is answered in time");
	printf("%ld %.6f\n", replies, seconds);
	return 0;
}
