// Segments of System V that are mapped, as shmop(2) has it: the kernel's, through ipcd-run and by the library's names.
// A word says which part; some are asked by clients.py, which looks at the server, and some stops it.
#define _GNU_SOURCE
#include <pthread.h>
#include <sys/ipc.h>
#include <sys/mman.h>
#include <sys/sem.h>
#include <sys/shm.h>
#include <sys/time.h>

#include "check.h"

// A page of the system's has as many bytes, or the tests of holes find fewer faults.
enum { KEY = 0x69706352, SIZE = 10000, PAGE = 4096, PAGES = 3, HOLE = 48, ROUNDS = 100 };

static struct shmid_ds record;

static int made(void)
{
    int segment = shmget(KEY, SIZE, IPC_CREAT | 0600);
    CHECK(segment >= 0);
    return segment;
}

static char *attached(int segment, int flags)
{
    char *address = shmat(segment, NULL, flags);
    CHECK(address != (void *) -1);
    return address;
}

static unsigned long count_of(int segment)
{
    CHECK(shmctl(segment, IPC_STAT, &record) == 0);
    return record.shm_nattch;
}

static void is_shared(void)
{
    int segment = made();
    errno = 77;
    char *one = attached(segment, 0), *two = attached(segment, SHM_RDONLY);
    CHECK(errno == 77 && one != two && count_of(segment) == 2);
    CHECK(one[0] == 0 && two[SIZE - 1] == 0);
    memcpy(one + SIZE - 3, "end", 3);
    CHECK(memcmp(two + SIZE - 3, "end", 3) == 0);
    CHECK(shmdt(one) == 0 && errno == 77);
    REFUSED(shmdt(one), EINVAL);
    CHECK(memcmp(two + SIZE - 3, "end", 3) == 0 && shmdt(two) == 0 && count_of(segment) == 0);
    one = attached(segment, 0);
    CHECK(memcmp(one + SIZE - 3, "end", 3) == 0 && shmdt(one) == 0);
    CHECK(shmctl(segment, IPC_RMID, NULL) == 0);
    REFUSED((long) shmat(segment, NULL, 0), EINVAL);
}

// Where the program wants it.
static void has_its_address(void)
{
    int segment = made();
    char *first = attached(segment, 0);
    strcpy(first, "first");
    CHECK(shmdt(first) == 0);
    REFUSED((long) shmat(segment, first + 1, 0), EINVAL);
    REFUSED((long) shmat(segment, NULL, SHM_REMAP), EINVAL);
    CHECK(shmat(segment, first, 0) == first && strcmp(first, "first") == 0);
    REFUSED((long) shmat(segment, first, 0), EINVAL);
    CHECK(count_of(segment) == 1 && shmat(segment, first, SHM_REMAP) == first && strcmp(first, "first") == 0);
    CHECK(count_of(segment) == 1 && shmdt(first) == 0);
    CHECK(shmctl(segment, IPC_RMID, NULL) == 0);
}

static void is_rounded(void)
{
    int segment = made();
    char *first = attached(segment, 0);
    CHECK(shmdt(first) == 0 && shmat(segment, first + 77, SHM_RND) == first && shmdt(first) == 0);
    CHECK(shmctl(segment, IPC_RMID, NULL) == 0);
}

// Takes what is free between other mappings, so that the next ones come below them, or into a hole that is made then.
static void fill_gaps(void)
{
    char *lowest = mmap(NULL, HOLE * PAGE, PROT_NONE, MAP_PRIVATE | MAP_ANONYMOUS, -1, 0), *next;
    for (size_t pages = HOLE; pages > 0; pages--)
        for (int tries = 0; tries < 1000; tries++) {
            next = mmap(NULL, pages * PAGE, PROT_NONE, MAP_PRIVATE | MAP_ANONYMOUS, -1, 0);
            CHECK(lowest != MAP_FAILED && next != MAP_FAILED);
            if (next < lowest) {
                lowest = next;
                break;
            }
        }
}

// Where so many pages are free and no others beside them: the system puts there what it maps next, if it fits.
static char *hole(size_t pages)
{
    fill_gaps();
    char *made = mmap(NULL, pages * PAGE, PROT_NONE, MAP_PRIVATE | MAP_ANONYMOUS, -1, 0);
    char *below = mmap(NULL, PAGE, PROT_NONE, MAP_PRIVATE | MAP_ANONYMOUS, -1, 0);
    CHECK(made != MAP_FAILED && below != MAP_FAILED && munmap(made, pages * PAGE) == 0);
    return made;
}

static void attaches_in_holes(void *pages)
{
    int segment = made();
    char *one = hole(*(size_t *) pages);
    CHECK(shmat(segment, one, 0) == one);
    strcpy(one, "hole");
    char *two = hole(*(size_t *) pages);
    CHECK(shmat(segment, two + 77, SHM_RDONLY | SHM_RND) == two && strcmp(two, "hole") == 0);
    CHECK(shmdt(one) == 0 && shmdt(two) == 0);
    // What was free beside it is free again.
    int flags = MAP_PRIVATE | MAP_ANONYMOUS | MAP_FIXED_NOREPLACE;
    CHECK(mmap(two, *(size_t *) pages * PAGE, PROT_NONE, flags, -1, 0) == two);
}

// What is mapped for a call, as for a connection, is not put where the program wants the segment. Whatever its length
// is, there is a hole into which it fits, and at whose begin it leaves less than the segment needs.
static void fits_into_holes(void)
{
    int segment = made();
    for (size_t pages = PAGES; pages < HOLE; pages += PAGES)
        ends_well(start(attaches_in_holes, &pages));
    char *address = attached(segment, 0);
    for (size_t pages = PAGES; pages <= 4 * PAGES; pages += PAGES)
        ends_well(start(attaches_in_holes, &pages));
    CHECK(strcmp(address, "hole") == 0 && shmdt(address) == 0 && shmctl(segment, IPC_RMID, NULL) == 0);
}

// What the server has of each page.
static void has_pages(int segment, const char *pages)
{
#ifdef PREFIXED
    char byte;
    int attachment = ipcd_shmattach(segment, SHM_RDONLY);
    for (int i = 0; i < PAGES; i++)
        CHECK(ipcd_shmread(attachment, &byte, 1, i * PAGE) == 1 && byte == pages[i]);
    CHECK(ipcd_shmdetach(attachment) == 0);
#endif
    char *address = attached(segment, SHM_RDONLY);
    for (int i = 0; i < PAGES; i++)
        CHECK(address[i * PAGE] == pages[i]);
    CHECK(shmdt(address) == 0);
}

static void replaces_in_a_hole(void *pages)
{
    int segment = made(), small = shmget(IPC_PRIVATE, PAGE, 0600);
    char *address = hole(*(size_t *) pages);
    CHECK(small >= 0 && shmat(small, address, SHM_REMAP) == address);
    strcpy(address, "small");
    CHECK(shmat(segment, address, SHM_REMAP) == address && count_of(small) == 0);
    for (int i = 0; i < PAGES; i++)
        address[i * PAGE] = "abc"[i];
    CHECK(shmdt(address) == 0);
    has_pages(segment, "abc");
    address = attached(small, SHM_RDONLY);
    CHECK(strcmp(address, "small") == 0 && shmdt(address) == 0);
    CHECK(shmctl(small, IPC_RMID, NULL) == 0 && shmctl(segment, IPC_RMID, NULL) == 0);
}

// SHM_REMAP takes room beyond what it replaces.
static void replaces_a_smaller_one(void)
{
    for (size_t pages = PAGES; pages <= 4 * PAGES; pages += PAGES)
        ends_well(start(replaces_in_a_hole, &pages));
}

static void writes(void *address)
{
    memcpy(address, "child", 5);
}

// A child has what its parent has attached.
static void is_inherited(void)
{
    int segment = made();
    char *address = attached(segment, 0);
    ends_well(start(writes, address));
    CHECK(memcmp(address, "child", 5) == 0);
    pid_t child = fork();
    if (child == 0)
        _exit(shmdt(address) == 0 && shmdt(address) == -1 ? 0 : 1);
    ends_well(child);
    CHECK(memcmp(address, "child", 5) == 0 && shmdt(address) == 0);
    CHECK(shmctl(segment, IPC_RMID, NULL) == 0);
}

#ifndef PREFIXED
// munmap(2) of all of it detaches it.
static void is_unmapped(void)
{
    int segment = made();
    char *one = attached(segment, 0), *two = attached(segment, 0);
    strcpy(one, "unmapped");
    REFUSED(munmap(one + 1, SIZE), EINVAL);
    CHECK(count_of(segment) == 2 && munmap(one, SIZE) == 0 && count_of(segment) == 1);
    REFUSED(shmdt(one), EINVAL);
    CHECK(msync(two, SIZE, MS_SYNC) == 0 && strcmp(two, "unmapped") == 0);
    // What is mapped beside it is no part of it.
    char *other = mmap(NULL, PAGE, PROT_READ | PROT_WRITE, MAP_PRIVATE | MAP_ANONYMOUS, -1, 0);
    CHECK(other != MAP_FAILED && munmap(other, PAGE) == 0 && count_of(segment) == 1);
    CHECK(shmdt(two) == 0 && shmctl(segment, IPC_RMID, NULL) == 0);
}
#endif

// A write to what may be read alone is a SIGSEGV.
static void is_read_only(void)
{
    int segment = made(), status;
    char *address = attached(segment, SHM_RDONLY);
    pid_t child = fork();
    if (child == 0) {
        signal(SIGSEGV, SIG_DFL);
        *(volatile char *) address = 1;
        _exit(0);
    }
    CHECK(waitpid(child, &status, 0) == child && WIFSIGNALED(status) && WTERMSIG(status) == SIGSEGV);
    CHECK(shmdt(address) == 0 && shmctl(segment, IPC_RMID, NULL) == 0);
}

static int locks(void)
{
    int set = semget(KEY, 1, IPC_CREAT | 0600);
    CHECK(set >= 0 && semctl(set, 0, SETVAL, 1) == 0);
    return set;
}

static void change(int set, short by)
{
    struct sembuf operation = {0, by, 0};
    CHECK(semop(set, &operation, 1) == 0);
}

// One number on each page of a segment, under a lock.
struct counted {
    int set;
    volatile unsigned *numbers[PAGES];
};

static struct counted counted(void)
{
    struct counted counted = {.set = locks()};
    char *address = attached(made(), 0);
    for (int i = 0; i < PAGES; i++)
        counted.numbers[i] = (unsigned *) (address + i * PAGE);
    return counted;
}

static unsigned count(struct counted *it)
{
    change(it->set, -1);
    unsigned next = *it->numbers[0] + 1;
    for (int i = 0; i < PAGES; i++)
        *it->numbers[i] = next;
    change(it->set, 1);
    return next;
}

static void *counts(void *it)
{
    for (int i = 0; i < ROUNDS; i++)
        count(it);
    return NULL;
}

static void counts_in_a_child(void *it)
{
    counts(it);
}

static void has_counted(struct counted *it, unsigned number)
{
    for (int i = 0; i < PAGES; i++)
        CHECK(*it->numbers[i] == number);
    CHECK(shmctl(made(), IPC_RMID, NULL) == 0 && semctl(it->set, 0, IPC_RMID) == 0);
    CHECK(shmdt((void *) it->numbers[0]) == 0);
}

static void threads_count(void)
{
    struct counted it = counted();
    pthread_t threads[3];
    for (int i = 0; i < 3; i++)
        CHECK(pthread_create(&threads[i], NULL, counts, &it) == 0);
    for (int i = 0; i < 3; i++)
        CHECK(pthread_join(threads[i], NULL) == 0);
    has_counted(&it, 3 * ROUNDS);
}

static void children_count(void)
{
    struct counted it = counted();
    pid_t one = start(counts_in_a_child, &it), two = start(counts_in_a_child, &it);
    counts(&it);
    ends_well(one);
    ends_well(two);
    has_counted(&it, 3 * ROUNDS);
}

// The next one comes some time after a handler has ended, however long it took.
static const struct itimerval soon = {{0, 0}, {0, 20000}}, never = {{0, 0}, {0, 0}};
static struct { int set; volatile unsigned rings; } ring;

static void handle(int number)
{
    int saved = errno;
    struct sembuf up = {0, 1, 0};
    (void) number;
    ring.rings += semop(ring.set, &up, 1) == 0;
    setitimer(ITIMER_REAL, &soon, NULL);
    errno = saved;
}

// A handler releases, whatever it interrupts.
static void handlers_release(void)
{
    struct counted it = counted();
    struct sigaction action = {.sa_handler = handle, .sa_flags = SA_RESTART};
    ring.set = semget(IPC_PRIVATE, 1, 0600);
    CHECK(ring.set >= 0 && sigaction(SIGALRM, &action, NULL) == 0 && setitimer(ITIMER_REAL, &soon, NULL) == 0);
    counts(&it);
    while (ring.rings < 10)
        pause_for(0.01);
    CHECK(setitimer(ITIMER_REAL, &never, NULL) == 0);
    CHECK(semctl(ring.set, 0, GETVAL) == (int) ring.rings && semctl(ring.set, 0, IPC_RMID) == 0);
    has_counted(&it, ROUNDS);
}

#ifdef PREFIXED
// What another connection has attached goes with it, and its bytes stay.
static void of_a_connection(void)
{
    struct ipcd *other = ipcd_connect(NULL);
    CHECK(other != NULL && ipcd_use(other) == NULL);
    int segment = made();
    char *address = attached(segment, 0), *another = attached(segment, SHM_RDONLY);
    strcpy(address, "other");
    CHECK(strcmp(another, "other") == 0 && count_of(segment) == 2 && ipcd_use(NULL) == other);
    ipcd_disconnect(other);
    REFUSED(shmdt(address), EINVAL);
    address = attached(segment, 0);
    CHECK(strcmp(address, "other") == 0 && count_of(segment) == 1 && shmdt(address) == 0);
    CHECK(shmctl(segment, IPC_RMID, NULL) == 0);
}
#endif

// A process has at most 32 attached.
static void has_most(void)
{
    enum { MOST = 32 };
    int segment = made();
    char *addresses[MOST];
    for (int i = 0; i < MOST; i++)
        addresses[i] = attached(segment, 0);
    REFUSED((long) shmat(segment, NULL, 0), EMFILE);
    CHECK(count_of(segment) == MOST && shmdt(addresses[7]) == 0);
    addresses[7] = attached(segment, 0);
    for (int i = 0; i < MOST; i++)
        CHECK(shmdt(addresses[i]) == 0);
    CHECK(shmctl(segment, IPC_RMID, NULL) == 0);
}

// Another user may not write the folder.
static void has_no_folder(void)
{
    CHECK(setgid(65534) == 0 && setuid(65534) == 0);
    int segment = made();
    REFUSED((long) shmat(segment, NULL, 0), EACCES);
    CHECK(count_of(segment) == 0 && shmctl(segment, IPC_RMID, NULL) == 0);
}

// Says each number that it has counted, until it is killed.
static void counts_on(void)
{
    struct counted it = counted();
    // Servers start meanwhile, which takes long beside much else.
    alarm(300);
    for (;;)
        CHECK(printf("%u\n", count(&it)) > 0 && fflush(stdout) == 0);
}

// The server ends meanwhile: of that the program hears once, by its own connection.
static void hears_of_it_once(void)
{
    struct counted it = counted();
    struct sembuf up = {0, 1, 0};
    count(&it);
    CHECK(puts("kill it now") >= 0 && fflush(stdout) == 0 && getchar() == '\n');
    *it.numbers[0] = 7;
    REFUSED(semop(it.set, &up, 1), ECONNRESET);
    CHECK(semop(it.set, &up, 1) == 0);
    CHECK(puts("released") >= 0 && fflush(stdout) == 0 && getchar() == '\n');
}

// It is removed while attached, and the server ends meanwhile.
static void outlives_it(void)
{
    int segment = made(), set = locks();
    char *address = attached(segment, 0);
    strcpy(address, "kept");
    CHECK(shmctl(segment, IPC_RMID, NULL) == 0 && puts("kill it now") >= 0 && fflush(stdout) == 0);
    CHECK(getchar() == '\n' && strcmp(address, "kept") == 0);
    struct sembuf up = {0, 1, 0};
    REFUSED(semop(set, &up, 1), ECONNRESET);
    strcpy(address, "kept on");
    CHECK(semop(set, &up, 1) == 0 && strcmp(address, "kept on") == 0);
    REFUSED(shmctl(segment, IPC_STAT, &record), EINVAL);
    CHECK(shmdt(address) == 0 && semctl(set, 0, IPC_RMID) == 0);
}

// It writes, and writes back what was there before, while no write to the server is answered.
static void changes_back(void)
{
    int set = locks();
    char *address = attached(made(), 0);
    struct sembuf up = {0, 1, 0};
    *address = 'x';
    CHECK(puts("changed") >= 0 && fflush(stdout) == 0 && getchar() == '\n');
    REFUSED(semop(set, &up, 1), ECONNRESET);
    CHECK(semctl(set, 0, GETVAL) == 1);
    *address = 0;
    CHECK(puts("changed back") >= 0 && fflush(stdout) == 0 && getchar() == '\n');
    CHECK(semop(set, &up, 1) == 0 && puts("released") >= 0 && fflush(stdout) == 0 && getchar() == '\n');
}

// Writes, and does what the word says.
static void writes_and(const char *word, const char *text)
{
    char *address = attached(made(), 0);
    strcpy(address + SIZE - 100, text);
    if (strcmp(word, "detach") == 0)
        CHECK(shmdt(address) == 0);
    if (strcmp(word, "sync") == 0)
        CHECK(msync(address, SIZE, MS_SYNC) == 0);
    if (strcmp(word, "unmap") == 0)
        CHECK(munmap(address, SIZE) == 0);
    if (strcmp(word, "exec") == 0)
        execlp("true", "true", NULL);
    if (strcmp(word, "leave") == 0)
        _exit(0);
    if (strcmp(word, "stay") == 0 || strcmp(word, "detach") == 0) {
        CHECK(puts("written") >= 0 && fflush(stdout) == 0);
        CHECK(getchar() == '\n');
    }
    if (strcmp(word, "die") == 0 || strcmp(word, "sync") == 0 || strcmp(word, "unmap") == 0)
        raise(SIGKILL);
    if (strcmp(word, "detach") != 0)
        CHECK(strcmp(address + SIZE - 100, text) == 0);
}

static void finds(const char *text)
{
    char *address = attached(made(), SHM_RDONLY);
    if (strcmp(address + SIZE - 100, text) != 0)
        fprintf(stderr, "it has %s\n", address + SIZE - 100);
    CHECK(strcmp(address + SIZE - 100, text) == 0);
}

int main(int words, char **word)
{
    static void (*const parts[])(void) = {
        is_shared, has_its_address, is_rounded, fits_into_holes, replaces_a_smaller_one, is_inherited, is_read_only,
        threads_count, children_count, handlers_release, counts_on, hears_of_it_once, has_most, has_no_folder,
        outlives_it, changes_back,
#ifdef PREFIXED
        of_a_connection,
#else
        is_unmapped,
#endif
    };
    static const char *const names[] = {
        "shared", "address", "rounded", "holes", "replaces", "inherited", "read_only", "threads", "children",
        "handlers", "counts_on", "hears_once", "most", "no_folder", "outlives", "changes_back",
#ifdef PREFIXED
        "connection",
#else
        "unmapped",
#endif
    };
    alarm(60);
    for (size_t i = 0; words == 2 && i < sizeof parts / sizeof *parts; i++)
        if (strcmp(word[1], names[i]) == 0) {
            parts[i]();
            return 0;
        }
    if (words != 3)
        return 2;
    if (strcmp(word[1], "find") == 0)
        finds(word[2]);
    else
        writes_and(word[1], word[2]);
    return 0;
}
