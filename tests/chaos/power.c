/* A library that lets the power of a machine fail for one device in a file. It is loaded before a program's own:
 *
 *     cc -shared -fPIC -o power.so power.c
 *     POWER_DEVICE=device POWER_LOG=undo LD_PRELOAD=./power.so PROGRAM
 *
 * Before each write to the device it appends to the log what the bytes there were; a sync that succeeds empties the
 * log. So after the program has ended, the log has what a failure of power may take back: tests/chaos/disk.py does so,
 * sector by sector. A record is the place and the size, 8 bytes each in the machine's order, and the old bytes.
 *
 * POWER_STOP="N wsre" ends the program with SIGKILL at the Nth of its writes to the device, syncs of it, replies (by
 * send) and ends of turns (by epoll_wait), or of those of them that are named: a write has then put down the first half
 * of its sectors, and of the others nothing is done. POWER_FAIL="N E" refuses the Nth of
 * its writes and syncs with error E: a write has then put down the first half of its sectors.
 *
 * With POWER_SLOW=N a sync takes N microseconds more, in which a kill may come, and requests that share the next one.
 * Of a program that is `early` this time passes before the writes that were held back.
 *
 * POWER_WRONG makes a wrong program of a right one:
 *   early    writes are held back, and reach the device only when the program waits for its next turn
 *   nosync   no sync does anything, though each succeeds
 *   third    each third sync does nothing
 *
 * The programs of this repository have one thread.
 */
#define _GNU_SOURCE
#include <dlfcn.h>
#include <errno.h>
#include <fcntl.h>
#include <signal.h>
#include <stdint.h>
#include <stdio.h>
#include <stdlib.h>
#include <string.h>
#include <sys/epoll.h>
#include <sys/socket.h>
#include <sys/stat.h>
#include <sys/syscall.h>
#include <unistd.h>

enum { SECTOR = 512 };

static struct stat device;
static int log_file = -1, refused_error;
static char stop_kinds[8];
static unsigned long calls, stop_at, device_calls, refused_call, syncs, slow;
static enum { RIGHT, EARLY, NOSYNC, THIRD } wrong;

/* A write that is held back. */
struct held {
	struct held *next;
	int file;
	size_t size;
	off_t place;
	unsigned char data[];
};

static struct held *held_first, **held_last = &held_first;

__attribute__((constructor)) static void begin(void)
{
	static const char *const names[] = {"", "early", "nosync", "third"};
	const char *word = getenv("POWER_DEVICE");
	if (!word || stat(word, &device) || !(word = getenv("POWER_LOG")))
		return;
	log_file = open(word, O_WRONLY | O_CREAT | O_APPEND | O_CLOEXEC, 0600);
	if (log_file < 0)
		abort();
	if ((word = getenv("POWER_STOP")) && sscanf(word, "%lu %7s", &stop_at, stop_kinds) != 2)
		abort();
	if ((word = getenv("POWER_SLOW")))
		slow = strtoul(word, NULL, 10);
	if ((word = getenv("POWER_FAIL")) && sscanf(word, "%lu %d", &refused_call, &refused_error) != 2)
		abort();
	word = getenv("POWER_WRONG");
	for (int i = 1; word && i < 4; i++)
		if (!strcmp(word, names[i]))
			wrong = i;
	if (word && *word && wrong == RIGHT)
		abort();
}

static int is_device(int file)
{
	struct stat found;
	return log_file >= 0 && !fstat(file, &found) && found.st_dev == device.st_dev && found.st_ino == device.st_ino;
}

/* Whether the program ends at this call. */
static int is_last(char kind)
{
	return strchr(stop_kinds, kind) && ++calls == stop_at;
}

static void stop(void)
{
	raise(SIGKILL);
	abort();
}

/* Writes down what stands where a write comes. */
static void remember(int file, size_t size, off_t place)
{
	uint64_t head[2] = {(uint64_t)place, size};
	unsigned char *record = calloc(1, sizeof head + size);
	if (!record)
		abort();
	memcpy(record, head, sizeof head);
	if (syscall(SYS_pread64, file, record + sizeof head, size, place) < 0 ||
	    syscall(SYS_write, log_file, record, sizeof head + size) != (long)(sizeof head + size))
		abort();
	free(record);
}

static ssize_t put(int file, const void *data, size_t size, off_t place)
{
	remember(file, size, place);
	return syscall(SYS_pwrite64, file, data, size, place);
}

static ssize_t hold(int file, const void *data, size_t size, off_t place)
{
	struct held *one = malloc(sizeof *one + size);
	if (!one)
		abort();
	*one = (struct held){.file = file, .size = size, .place = place};
	memcpy(one->data, data, size);
	*held_last = one;
	held_last = &one->next;
	return (ssize_t)size;
}

static int forget(void)
{
	return ftruncate(log_file, 0);
}

static void wait_slowly(void)
{
	if (slow)
		usleep((useconds_t)slow);
}

/* What was held back reaches the device now, and is synced. */
static void let_through(void)
{
	int file = -1;
	wait_slowly();
	while (held_first) {
		struct held *one = held_first;
		file = one->file;
		if (put(file, one->data, one->size, one->place) != (ssize_t)one->size)
			abort();
		held_first = one->next;
		free(one);
	}
	held_last = &held_first;
	if (file >= 0 && (syscall(SYS_fdatasync, file) || forget()))
		abort();
}

/* The first half of the sectors of a write, at least one if there are several. */
static size_t half(size_t size)
{
	return size / SECTOR / 2 * SECTOR;
}

ssize_t pwrite(int file, const void *data, size_t size, off_t place)
{
	if (!is_device(file))
		return syscall(SYS_pwrite64, file, data, size, place);
	if (is_last('w')) {
		put(file, data, half(size), place);
		stop();
	}
	if (++device_calls == refused_call) {
		put(file, data, half(size), place);
		errno = refused_error;
		return -1;
	}
	return wrong == EARLY ? hold(file, data, size, place) : put(file, data, size, place);
}

ssize_t pread(int file, void *data, size_t size, off_t place)
{
	if (held_first)
		let_through();
	return syscall(SYS_pread64, file, data, size, place);
}

static int sync_of(int file, long number)
{
	if (!is_device(file))
		return (int)syscall(number, file);
	if (is_last('s'))
		stop();
	if (wrong != EARLY)
		wait_slowly();
	if (++device_calls == refused_call) {
		errno = refused_error;
		return -1;
	}
	if (wrong == EARLY || wrong == NOSYNC || (wrong == THIRD && ++syncs % 3 == 0))
		return 0;
	int result = (int)syscall(number, file);
	return result ? result : forget();
}

int fdatasync(int file)
{
	return sync_of(file, SYS_fdatasync);
}

int fsync(int file)
{
	return sync_of(file, SYS_fsync);
}

/* The length of a device that is served stays. Were it changed, the log would not have what a failure takes back. */
int ftruncate(int file, off_t length)
{
	if (file != log_file && is_device(file))
		abort();
	return (int)syscall(SYS_ftruncate, file, length);
}

ssize_t send(int file, const void *data, size_t size, int flags)
{
	if (is_last('r'))
		stop();
	return syscall(SYS_sendto, file, data, size, flags, NULL, 0);
}

int epoll_wait(int file, struct epoll_event *events, int most, int longest)
{
	static __typeof__(epoll_wait) *next;
	if (!next)
		next = (__typeof__(epoll_wait) *)dlsym(RTLD_NEXT, "epoll_wait");
	if (is_last('e'))
		stop();
	if (held_first)
		let_through();
	return next(file, events, most, longest);
}
