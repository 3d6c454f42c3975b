/* A malloc that refuses one call, to be loaded before a program's own:
 *
 *     cc -shared -fPIC -o refuse_malloc.so refuse_malloc.c
 *     REFUSE_CALL=3 REFUSE_MARK=refused LD_PRELOAD=./refuse_malloc.so PROGRAM
 *
 * The third call of malloc or realloc answers NULL, and an empty file `refused` says that there was one. The
 * programs of this repository have one thread, and take memory by these two functions alone.
 */
#define _GNU_SOURCE
#include <dlfcn.h>
#include <errno.h>
#include <fcntl.h>
#include <stdlib.h>
#include <unistd.h>

/* Counts a call, and tells whether it is the one to refuse. */
static int is_refused(void)
{
	static unsigned long calls, refused;
	if (calls == 0) {
		const char *word = getenv("REFUSE_CALL");
		refused = word ? strtoul(word, NULL, 10) : 0;
	}
	calls++;
	if (calls != refused)
		return 0;
	const char *mark = getenv("REFUSE_MARK");
	if (mark)
		close(open(mark, O_WRONLY | O_CREAT, 0600));
	errno = ENOMEM;
	return 1;
}

void *malloc(size_t bytes)
{
	static void *(*next)(size_t);
	if (!next)
		next = (void *(*)(size_t))dlsym(RTLD_NEXT, "malloc");
	return is_refused() ? NULL : next(bytes);
}

void *realloc(void *block, size_t bytes)
{
	static void *(*next)(void *, size_t);
	if (!next)
		next = (void *(*)(void *, size_t))dlsym(RTLD_NEXT, "realloc");
	return is_refused() ? NULL : next(block, bytes);
}
