// Segments of System V: what shmget(2), shmctl(2) and shmop(2) say, mapped; and by the library's names read and written
// at an offset.
#define _GNU_SOURCE
#include <sys/ipc.h>
#include <sys/shm.h>
#include <sys/stat.h>

#include "check.h"

enum { KEY = 0x69706351, SIZE = 10000, MOST = 64 };

static struct shmid_ds record;
static char buffer[SIZE];

#ifdef PREFIXED
#define attach ipcd_shmattach
#define detach ipcd_shmdetach
#define read_at ipcd_shmread
#define write_at ipcd_shmwrite
#else
static char *attached[MOST];

static int attach(int shmid, int flags)
{
    char *address = shmat(shmid, NULL, flags);
    if (address == (void *) -1)
        return -1;
    int number = 0;
    while (attached[number] != NULL)
        number++;
    attached[number] = address;
    return number;
}

static int detach(int attachment)
{
    char *address = attached[attachment];
    attached[attachment] = NULL;
    return shmdt(address);
}

static ssize_t read_at(int attachment, void *bytes, size_t count, off_t offset)
{
    memcpy(bytes, attached[attachment] + offset, count);
    return (ssize_t) count;
}

static ssize_t write_at(int attachment, const void *bytes, size_t count, off_t offset)
{
    memcpy(attached[attachment] + offset, bytes, count);
    return (ssize_t) count;
}
#endif

static unsigned long count_of(int segment)
{
    CHECK(shmctl(segment, IPC_STAT, &record) == 0);
    return record.shm_nattch;
}

static bool is_now(time_t time)
{
    struct timespec soon = moment(CLOCK_REALTIME, 0);
    return time >= soon.tv_sec - 60 && time <= soon.tv_sec;
}

// What a run that failed has left.
static void begins_anew(void)
{
    int segment = shmget(KEY, 0, 0);
    if (segment >= 0)
        CHECK(shmctl(segment, IPC_RMID, NULL) == 0);
}

static void makes_and_finds(void)
{
    REFUSED(shmget(KEY, SIZE, 0600), ENOENT);
    REFUSED(shmget(KEY, 0, IPC_CREAT | 0600), EINVAL);
    int segment = shmget(KEY, SIZE, IPC_CREAT | IPC_EXCL | 0640);
    CHECK(segment >= 0);
    CHECK(shmget(KEY, 0, 0) == segment && shmget(KEY, SIZE, IPC_CREAT | 0600) == segment);
    REFUSED(shmget(KEY, SIZE, IPC_CREAT | IPC_EXCL | 0600), EEXIST);
    REFUSED(shmget(KEY, SIZE + 1, 0), EINVAL);
    memset(&record, 0xff, sizeof record);
    CHECK(shmctl(segment, IPC_STAT, &record) == 0);
    CHECK(record.shm_perm.__key == KEY && (record.shm_perm.mode & 07777) == 0640 && record.shm_segsz == SIZE);
    CHECK(record.shm_perm.uid == geteuid() && record.shm_perm.gid == getegid());
    CHECK(record.shm_perm.cuid == geteuid() && record.shm_perm.cgid == getegid());
    CHECK(record.shm_nattch == 0 && record.shm_atime == 0 && record.shm_dtime == 0 && is_now(record.shm_ctime));
    CHECK(record.shm_cpid == getpid() && record.shm_lpid == 0);
    int other = shmget(IPC_PRIVATE, 1, 0600), another = shmget(IPC_PRIVATE, 1, 0600);
    CHECK(other >= 0 && another >= 0 && other != another);
    record.shm_perm.mode = 07606;
    CHECK(shmctl(segment, IPC_SET, &record) == 0 && shmctl(segment, IPC_STAT, &record) == 0);
    CHECK((record.shm_perm.mode & 07777) == 0606);
    CHECK(shmctl(segment, IPC_RMID, NULL) == 0 && shmctl(other, IPC_RMID, NULL) == 0);
    CHECK(shmctl(another, IPC_RMID, NULL) == 0);
    REFUSED(shmctl(segment, IPC_STAT, &record), EINVAL);
    REFUSED(shmctl(segment, IPC_RMID, NULL), EINVAL);
    REFUSED(attach(segment, 0), EINVAL);
    REFUSED(shmget(KEY, 0, 0), ENOENT);
}

// The limits of a server are those of docs/PROTOCOL.md, and its counts those of the segments that this process has got.
static void has_info(void)
{
    struct shminfo limits;
    struct shm_info counts;
    void *place = &limits;
    int segment = shmget(IPC_PRIVATE, SIZE, 0600), gone = shmget(IPC_PRIVATE, SIZE, 0600);
    CHECK(segment >= 0 && gone >= 0 && shmctl(gone, IPC_RMID, NULL) == 0);
    unsigned long pages = (SIZE + (unsigned long) sysconf(_SC_PAGESIZE) - 1) / (unsigned long) sysconf(_SC_PAGESIZE);
    memset(&limits, 0xff, sizeof limits);
    memset(&counts, 0xff, sizeof counts);
    errno = 77;
    CHECK(shmctl(0, IPC_INFO, place) >= 0 && errno == 77 && limits.shmmin == 1);
    place = &counts;
    CHECK(shmctl(12345, SHM_INFO, place) >= 0 && errno == 77 && counts.shm_swp == 0);
#ifdef PREFIXED
    CHECK(limits.shmmax == 1048576 && limits.shmmni == 32 && limits.shmall == 1048576 / (size_t) sysconf(_SC_PAGESIZE));
    CHECK(counts.used_ids == 1 && counts.shm_tot == pages);
#else
    CHECK(limits.shmmax >= SIZE && limits.shmmni > 0 && limits.shmall > 0);
    CHECK(counts.used_ids >= 1 && counts.shm_tot >= pages);
#endif
    REFUSED(shmctl(-1, SHM_INFO, place), EINVAL);
    if (tries_bad_addresses()) {
        REFUSED(shmctl(0, IPC_INFO, (void *) 8), EFAULT);
        REFUSED(shmctl(0, SHM_INFO, (void *) 8), EFAULT);
    }
    CHECK(shmctl(segment, IPC_RMID, NULL) == 0);
}

static void shares_bytes(void)
{
    int segment = shmget(KEY, SIZE, IPC_CREAT | 0600);
    int one = attach(segment, 0), two = attach(segment, SHM_RDONLY);
    CHECK(one >= 0 && two >= 0 && one != two && count_of(segment) == 2);
    CHECK(is_now(record.shm_atime) && record.shm_lpid == getpid() && record.shm_dtime == 0);
    memset(buffer, 'x', 4);
    errno = 77;
    CHECK(read_at(two, buffer, 4, SIZE - 4) == 4 && memcmp(buffer, "\0\0\0", 4) == 0);
    CHECK(write_at(one, "abc", 3, SIZE - 3) == 3 && read_at(two, buffer, 4, SIZE - 4) == 4);
    CHECK(memcmp(buffer, "\0abc", 4) == 0);
    CHECK(detach(one) == 0 && errno == 77);
    CHECK(count_of(segment) == 1 && is_now(record.shm_dtime) && record.shm_lpid == getpid());
    REFUSED(detach(one), EINVAL);
    CHECK(read_at(two, buffer, 3, SIZE - 3) == 3 && memcmp(buffer, "abc", 3) == 0);
    CHECK(detach(two) == 0 && count_of(segment) == 0);
    // What was written is there for who attaches it again.
    one = attach(segment, 0);
    CHECK(read_at(one, buffer, 3, SIZE - 3) == 3 && memcmp(buffer, "abc", 3) == 0);
    CHECK(detach(one) == 0 && shmctl(segment, IPC_RMID, NULL) == 0);
}

static void goes_with_its_last_attachment(void)
{
    int segment = shmget(KEY, SIZE, IPC_CREAT | 0600), one = attach(segment, 0);
    CHECK(write_at(one, "kept", 4, 0) == 4);
    CHECK(shmctl(segment, IPC_RMID, NULL) == 0 && count_of(segment) == 1);
    CHECK(record.shm_perm.__key == IPC_PRIVATE && (record.shm_perm.mode & 07777) == (SHM_DEST | 0600));
    int other = shmget(KEY, 1, IPC_CREAT | IPC_EXCL | 0600);
    CHECK(other >= 0 && other != segment && shmctl(other, IPC_RMID, NULL) == 0);
    int two = attach(segment, SHM_RDONLY);
    CHECK(two >= 0 && read_at(two, buffer, 4, 0) == 4 && memcmp(buffer, "kept", 4) == 0);
    record.shm_perm.mode = 0640;
    CHECK(shmctl(segment, IPC_RMID, NULL) == 0 && shmctl(segment, IPC_SET, &record) == 0);
    CHECK(count_of(segment) == 2 && (record.shm_perm.mode & 07777) == (SHM_DEST | 0640));
    CHECK(detach(one) == 0 && count_of(segment) == 1 && detach(two) == 0);
    REFUSED(shmctl(segment, IPC_STAT, &record), EINVAL);
    REFUSED(attach(segment, 0), EINVAL);
}

struct of_child {
    int segment, attachment;
};

static void attaches_and_ends(void *argument)
{
    struct of_child *of = argument;
    // What its parent has attached it has too.
    CHECK(read_at(of->attachment, buffer, 6, 0) == 6 && memcmp(buffer, "parent", 6) == 0);
    CHECK(write_at(attach(of->segment, 0), "child", 5, 0) == 5 && count_of(of->segment) == 3);
}

static void ends_give_attachments_up(void)
{
    int segment = shmget(IPC_PRIVATE, SIZE, 0600), one = attach(segment, 0);
    CHECK(write_at(one, "parent", 6, 0) == 6);
    ends_well(start(attaches_and_ends, &(struct of_child){segment, one}));
    for (double began = now(); now() - began < 5 && count_of(segment) > 1;)
        pause_for(0.01);
    CHECK(count_of(segment) == 1 && is_now(record.shm_dtime));
    CHECK(read_at(one, buffer, 6, 0) == 6 && memcmp(buffer, "childt", 6) == 0);
    CHECK(shmctl(segment, IPC_RMID, NULL) == 0 && detach(one) == 0);
}

static void is_refused(void *argument)
{
    int segment = *(int *) argument;
    CHECK(setgid(65534) == 0 && setuid(65534) == 0);
    REFUSED(shmget(KEY, 0, 0600), EACCES);
    CHECK(shmget(KEY, 0, 0400) == segment && shmctl(segment, IPC_STAT, &record) == 0);
    REFUSED(attach(segment, 0), EACCES);
    int attachment = attach(segment, SHM_RDONLY);
    CHECK(attachment >= 0 && read_at(attachment, buffer, 1, 0) == 1);
    REFUSED(shmctl(segment, IPC_SET, &record), EPERM);
    REFUSED(shmctl(segment, IPC_RMID, NULL), EPERM);
}

static void has_a_mode(void)
{
    int segment = shmget(KEY, SIZE, IPC_CREAT | 0604);
    if (geteuid() == 0)
        ends_well(start(is_refused, &segment));
    REFUSED(shmctl(segment, 99, &record), EINVAL);
    if (tries_bad_addresses()) {
        REFUSED(shmctl(segment, IPC_STAT, (struct shmid_ds *) 16), EFAULT);
        REFUSED(shmctl(segment, IPC_SET, (struct shmid_ds *) 16), EFAULT);
    }
    CHECK(shmctl(segment, IPC_RMID, NULL) == 0);
}

#ifdef PREFIXED
static void is_at_an_offset(void)
{
    int segment = shmget(IPC_PRIVATE, SIZE, 0600), others[MOST], count = 0;
    int one = attach(segment, 0), two = attach(segment, SHM_RDONLY);
    REFUSED(write_at(two, "a", 1, 0), EBADF);
    REFUSED(write_at(one, "abc", 3, SIZE - 2), EINVAL);
    REFUSED(read_at(two, buffer, 3, SIZE - 2), EINVAL);
    REFUSED(read_at(two, buffer, 1, -1), EINVAL);
    REFUSED(write_at(one, buffer, 1, -1), EINVAL);
    CHECK(read_at(two, buffer, 0, SIZE) == 0 && write_at(one, buffer, 0, SIZE) == 0);
    memset(buffer, 'y', SIZE);
    CHECK(write_at(one, buffer, 9000, 0) == 8192 && read_at(two, buffer, 9000, 1000) == 8192);
    CHECK(buffer[7191] == 'y' && buffer[7192] == 0);
    if (tries_bad_addresses()) {
        REFUSED(read_at(two, (char *) 16, 1, 0), EFAULT);
        REFUSED(write_at(one, (char *) 16, 1, 0), EFAULT);
    }
    // No other call takes it, and it takes no other descriptor.
    int named = ipcd_shm_open("/ipcd_attached", O_RDWR | O_CREAT, 0600);
    CHECK(named >= 0 && ipcd_shm_unlink("/ipcd_attached") == 0);
    REFUSED(ipcd_close(one), EBADF);
    REFUSED(ipcd_pread(one, buffer, 1, 0), EBADF);
    REFUSED(read_at(named, buffer, 1, 0), EBADF);
    REFUSED(detach(named), EINVAL);
    REFUSED(detach(0), EINVAL);
    CHECK(ipcd_close(named) == 0);
    REFUSED(shmctl(segment, SHM_LOCK, NULL), EINVAL);
    REFUSED(shmctl(0, SHM_STAT, &record), EINVAL);
    // A process of the server has 32 descriptors.
    while ((others[count] = attach(segment, 0)) >= 0)
        count++;
    CHECK(errno == EMFILE && count == 30 && count_of(segment) == 32);
    while (count > 0)
        CHECK(detach(others[--count]) == 0);
    CHECK(shmctl(segment, IPC_RMID, NULL) == 0 && detach(one) == 0 && detach(two) == 0);
    REFUSED(shmctl(segment, IPC_STAT, &record), EINVAL);
}
#endif

int main(void)
{
    alarm(60);
    begins_anew();
    makes_and_finds();
    has_info();
    shares_bytes();
    goes_with_its_last_attachment();
    ends_give_attachments_up();
    has_a_mode();
#ifdef PREFIXED
    is_at_an_offset();
#endif
    return 0;
}
