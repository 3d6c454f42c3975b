/* A library that steps the system's clock for one program. It is loaded before a program's own:
 *
 *     cc -shared -fPIC -o step_clock.so step_clock.c
 *     STEP_FILE=step LD_PRELOAD=./step_clock.so PROGRAM
 *
 * The file has eight bytes: by how many milliseconds the clock is ahead, a signed number in the machine's order. It may
 * be written while the program runs. The clock that is never stepped goes on as it does.
 */
#define _GNU_SOURCE
#include <fcntl.h>
#include <stdlib.h>
#include <sys/mman.h>
#include <sys/syscall.h>
#include <sys/time.h>
#include <time.h>
#include <unistd.h>

static const volatile long long *ahead;

__attribute__((constructor)) static void begin(void)
{
	const char *name = getenv("STEP_FILE");
	int file = name ? open(name, O_RDONLY | O_CLOEXEC) : -1;
	if (file < 0)
		return;
	void *place = mmap(NULL, sizeof *ahead, PROT_READ, MAP_SHARED, file, 0);
	close(file);
	if (place != MAP_FAILED)
		ahead = place;
}

int clock_gettime(clockid_t clock, struct timespec *time)
{
	int result = (int)syscall(SYS_clock_gettime, clock, time);
	if (result || !ahead || clock != CLOCK_REALTIME)
		return result;
	long long step = *ahead;
	time->tv_sec += step / 1000;
	time->tv_nsec += step % 1000 * 1000000;
	if (time->tv_nsec >= 1000000000) {
		time->tv_nsec -= 1000000000;
		time->tv_sec++;
	} else if (time->tv_nsec < 0) {
		time->tv_nsec += 1000000000;
		time->tv_sec--;
	}
	return 0;
}

/* The two older calls of the same clock. */
time_t time(time_t *second)
{
	struct timespec now;
	if (clock_gettime(CLOCK_REALTIME, &now))
		return -1;
	if (second)
		*second = now.tv_sec;
	return now.tv_sec;
}

int gettimeofday(struct timeval *time, void *zone)
{
	struct timespec now;
	(void)zone;
	if (clock_gettime(CLOCK_REALTIME, &now))
		return -1;
	if (time)
		*time = (struct timeval){now.tv_sec, now.tv_nsec / 1000};
	return 0;
}
