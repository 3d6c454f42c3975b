// Segments of shm_open(3), as its pages, mmap(2), ftruncate(2) and fstat(2) have it: the kernel's, and redirected with
// ipcd-run --segments. What is written back is seen by tests/mapped.c.
#define _GNU_SOURCE
#include <fcntl.h>
#include <sys/mman.h>
#include <sys/stat.h>

#include "check.h"

enum { SIZE = 10000, PAGE = 4096 };

static struct stat status;
static const char *program;

static int opened(int flags)
{
    int fd = shm_open("/ipcd_named", flags, 0640);
    CHECK(fd >= 0);
    return fd;
}

static int made(void)
{
    shm_unlink("/ipcd_named");
    return opened(O_RDWR | O_CREAT | O_EXCL);
}

static off_t length_of(int fd)
{
    CHECK(fstat(fd, &status) == 0);
    return status.st_size;
}

static char *mapped(int fd, size_t length)
{
    char *address = mmap(NULL, length, PROT_READ | PROT_WRITE, MAP_SHARED, fd, 0);
    CHECK(address != MAP_FAILED);
    return address;
}

static void is_opened(void)
{
    static char longest[400];
    memset(longest, 'n', 300);
    longest[0] = '/';
    shm_unlink("/ipcd_named");
    REFUSED(shm_open("/ipcd_named", O_RDWR, 0), ENOENT);
    REFUSED(shm_unlink("/ipcd_named"), ENOENT);
    // As the page has it. The C library answers EINVAL.
    REFUSED(shm_open(longest, O_RDWR, 0), is_on_kernel() ? EINVAL : ENAMETOOLONG);
    REFUSED(shm_open("/a/b", O_RDWR, 0), EINVAL);
    mode_t before = umask(027);
    int lowest = dup(0);
    CHECK(close(lowest) == 0 && opened(O_RDWR | O_CREAT) == lowest && fcntl(lowest, F_GETFD) == FD_CLOEXEC);
    umask(before);
    CHECK(length_of(lowest) == 0 && S_ISREG(status.st_mode) && (status.st_mode & 0777) == 0640);
    CHECK(status.st_uid == geteuid() && status.st_gid == getegid());
    REFUSED(shm_open("/ipcd_named", O_RDWR | O_CREAT | O_EXCL, 0600), EEXIST);
    // The name means the same with more slashes, or none.
    CHECK(ftruncate(lowest, 5) == 0 && close(lowest) == 0);
    int fd = shm_open("ipcd_named", O_RDONLY, 0);
    CHECK(fd == lowest && length_of(fd) == 5);
    REFUSED(ftruncate(fd, 6), EINVAL);
    REFUSED((long) mmap(NULL, 5, PROT_READ | PROT_WRITE, MAP_SHARED, fd, 0), EACCES);
    CHECK(close(fd) == 0);
    REFUSED(ftruncate(fd, 6), EBADF);
    fd = opened(O_RDWR);
    REFUSED(ftruncate(fd, -1), EINVAL);
    CHECK(close(fd) == 0 && shm_unlink("/ipcd_named") == 0);
    REFUSED(shm_open("/ipcd_named", O_RDWR, 0), ENOENT);
}

// Mappings of two opens are one memory, which stays when the descriptors and the mappings are gone.
static void is_shared(void)
{
    int one = made();
    CHECK(ftruncate(one, SIZE) == 0 && length_of(one) == SIZE);
    char *first = mapped(one, SIZE);
    int two = opened(O_RDONLY), copy = dup(two);
    char *second = mmap(NULL, SIZE, PROT_READ, MAP_SHARED, two, 0);
    CHECK(second != MAP_FAILED && close(one) == 0 && close(two) == 0 && copy >= 0);
    CHECK(first[0] == 0 && second[SIZE - 1] == 0);
    memcpy(first + SIZE - 3, "end", 3);
    char text[3];
    CHECK(memcmp(second + SIZE - 3, "end", 3) == 0 && pread(copy, text, 3, SIZE - 3) == 3);
    CHECK(memcmp(text, "end", 3) == 0 && length_of(copy) == SIZE && close(copy) == 0);
    CHECK(msync(first, SIZE, MS_SYNC) == 0 && munmap(first, SIZE) == 0 && munmap(second, SIZE) == 0);
    one = opened(O_RDWR);
    first = mapped(one, SIZE);
    CHECK(length_of(one) == SIZE && memcmp(first + SIZE - 3, "end", 3) == 0);
    CHECK(munmap(first, SIZE) == 0 && close(one) == 0 && shm_unlink("/ipcd_named") == 0);
}

// A copy of a descriptor is one of the segment, long after the first was closed.
static void is_copied(void)
{
    int fd = made(), copy = dup(fd);
    CHECK(copy >= 0 && close(fd) == 0);
    pause_for(0.3);
    CHECK(ftruncate(copy, SIZE) == 0);
    char *address = mapped(copy, SIZE);
    CHECK(close(copy) == 0);
    pause_for(0.3);
    strcpy(address, "copied");
    CHECK(munmap(address, SIZE) == 0);
    fd = opened(O_RDWR);
    address = mapped(fd, SIZE);
    CHECK(length_of(fd) == SIZE && strcmp(address, "copied") == 0);
    CHECK(munmap(address, SIZE) == 0 && close(fd) == 0 && shm_unlink("/ipcd_named") == 0);
}

// What a cut takes away is 0 when it comes again.
static void is_cut(void)
{
    int fd = made();
    CHECK(ftruncate(fd, SIZE) == 0);
    char *address = mapped(fd, SIZE);
    memset(address, 'x', SIZE);
    CHECK(msync(address, SIZE, MS_SYNC) == 0 && ftruncate(fd, 100) == 0 && length_of(fd) == 100);
    CHECK(ftruncate(fd, SIZE) == 0 && address[99] == 'x' && address[100] == 0 && address[SIZE - 1] == 0);
    // By another open, and by one that cuts it itself.
    memset(address, 'y', SIZE);
    int other = opened(O_RDWR | O_TRUNC);
    CHECK(length_of(fd) == 0 && ftruncate(other, 2 * SIZE) == 0 && length_of(fd) == 2 * SIZE && address[0] == 0);
    CHECK(posix_fallocate(fd, 0, 3 * SIZE) == 0 && length_of(other) == 3 * SIZE);
    CHECK(posix_fallocate(fd, 10, 10) == 0 && length_of(other) == 3 * SIZE);
    CHECK(posix_fallocate(fd, 0, 0) == EINVAL);
    CHECK(munmap(address, SIZE) == 0);
    address = mapped(other, 3 * SIZE);
    strcpy(address + 3 * SIZE - 10, "all");
    CHECK(write(fd, "file", 5) == 5 && strcmp(address, "file") == 0);
    CHECK(munmap(address, 3 * SIZE) == 0 && close(fd) == 0 && close(other) == 0);
    address = mapped(fd = opened(O_RDWR), 3 * SIZE);
    CHECK(strcmp(address, "file") == 0 && strcmp(address + 3 * SIZE - 10, "all") == 0);
    CHECK(munmap(address, 3 * SIZE) == 0 && close(fd) == 0 && shm_unlink("/ipcd_named") == 0);
}

static void writes(void *address)
{
    strcpy(address, "child");
}

// Unlinked it is that of whoever has it, and the name is another's.
static void is_unlinked(void)
{
    int fd = made();
    CHECK(ftruncate(fd, SIZE) == 0);
    char *address = mapped(fd, SIZE);
    strcpy(address, "kept");
    CHECK(shm_unlink("/ipcd_named") == 0);
    int other = opened(O_RDWR | O_CREAT | O_EXCL);
    CHECK(length_of(other) == 0 && length_of(fd) == SIZE && strcmp(address, "kept") == 0);
    CHECK(ftruncate(other, SIZE) == 0);
    char *another = mapped(other, SIZE);
    CHECK(*another == 0 && ftruncate(fd, 2 * SIZE) == 0 && length_of(fd) == 2 * SIZE && length_of(other) == SIZE);
    ends_well(start(writes, address));
    CHECK(strcmp(address, "child") == 0 && *another == 0 && length_of(fd) == 2 * SIZE);
    CHECK((status.st_mode & 0777) == 0640 && status.st_uid == geteuid());
    CHECK(munmap(address, SIZE) == 0 && munmap(another, SIZE) == 0 && close(fd) == 0 && close(other) == 0);
    CHECK(shm_unlink("/ipcd_named") == 0);
}

static void unlinks(void *unused)
{
    (void) unused;
    CHECK(shm_unlink("/ipcd_named") == 0);
    int fd = made();
    CHECK(ftruncate(fd, SIZE) == 0);
    strcpy(mapped(fd, SIZE), "new");
}

// Another process unlinks it and makes one of the name: what is written here does not come there.
static void is_anothers(void)
{
    int fd = made();
    CHECK(ftruncate(fd, SIZE) == 0);
    char *address = mapped(fd, SIZE);
    strcpy(address, "old");
    ends_well(start(unlinks, NULL));
    CHECK(strcmp(address, "old") == 0);
    strcpy(address, "older");
    pause_for(0.3);
    int other = opened(O_RDWR);
    char *another = mapped(other, SIZE);
    CHECK(strcmp(another, "new") == 0 && strcmp(address, "older") == 0);
    CHECK(munmap(address, SIZE) == 0 && munmap(another, SIZE) == 0 && close(fd) == 0 && close(other) == 0);
    CHECK(shm_unlink("/ipcd_named") == 0);
}

// Children have mappings and descriptors.
static void is_inherited(void)
{
    int fd = made(), other;
    CHECK(ftruncate(fd, SIZE) == 0);
    char *address = mapped(fd, SIZE);
    ends_well(start(writes, address));
    CHECK(strcmp(address, "child") == 0);
    pid_t child = fork();
    if (child == 0) {
        alarm(60);
        CHECK(munmap(address, SIZE) == 0 && ftruncate(fd, 3 * PAGE + 1) == 0);
        address = mapped(fd, 3 * PAGE + 1);
        address[3 * PAGE] = 'z';
        exit(0);
    }
    ends_well(child);
    CHECK(length_of(fd) == 3 * PAGE + 1 && munmap(address, SIZE) == 0 && close(fd) == 0);
    address = mapped(other = opened(O_RDWR), 3 * PAGE + 1);
    CHECK(address[3 * PAGE] == 'z' && strcmp(address, "child") == 0);
    CHECK(munmap(address, 3 * PAGE + 1) == 0 && close(other) == 0 && shm_unlink("/ipcd_named") == 0);
}

// A process may have had more of them than it may have at once.
static void comes_and_goes(void)
{
    for (int i = 0; i < 100; i++) {
        char name[20];
        snprintf(name, sizeof name, "/ipcd_named%d", i);
        shm_unlink(name);
        int fd = shm_open(name, O_RDWR | O_CREAT | O_EXCL, 0600);
        CHECK(fd >= 0 && ftruncate(fd, PAGE) == 0);
        char *address = mapped(fd, PAGE);
        CHECK(close(fd) == 0);
        *address = 'x';
        CHECK(munmap(address, PAGE) == 0 && shm_unlink(name) == 0);
    }
}

// Nobody counts those that have no name.
static void makes_many(void)
{
    char *addresses[100];
    for (int i = 0; i < 100; i++) {
        int fd = made();
        CHECK(ftruncate(fd, SIZE) == 0 && shm_unlink("/ipcd_named") == 0);
        addresses[i] = mapped(fd, SIZE);
        *addresses[i] = (char) i;
        CHECK(close(fd) == 0);
    }
    for (int i = 0; i < 100; i++)
        CHECK(*addresses[i] == (char) i && munmap(addresses[i], SIZE) == 0);
}

// What a server has beside the kernel: at most 1 MiB of segments.
static void has_most(void)
{
    int fd = made();
    CHECK(ftruncate(fd, 1048576) == 0 && length_of(fd) == 1048576);
    char *address = mapped(fd, 1048576);
    strcpy(address + 1048576 - 10, "last");
    REFUSED(ftruncate(fd, 1048577), ENOSPC);
    CHECK(length_of(fd) == 1048576 && munmap(address, 1048576) == 0 && close(fd) == 0);
    CHECK(shm_unlink("/ipcd_named") == 0);
}

// The same bytes as before come again where a cut has taken them: the server has them, as is seen outside.
static void is_written_again(void)
{
    int fd = made();
    CHECK(ftruncate(fd, SIZE) == 0);
    char *address = mapped(fd, SIZE);
    memset(address, 'x', SIZE);
    CHECK(msync(address, SIZE, MS_SYNC) == 0 && ftruncate(fd, 100) == 0 && ftruncate(fd, SIZE) == 0);
    memset(address, 'x', SIZE);
}

// The same as is_anothers, and the server ends before this process writes. What it has of the name is seen outside.
static void is_anothers_after_a_restart(void)
{
    int fd = made();
    CHECK(ftruncate(fd, SIZE) == 0);
    char *address = mapped(fd, SIZE);
    strcpy(address, "old");
    ends_well(start(unlinks, NULL));
    CHECK(puts("kill it now") >= 0 && fflush(stdout) == 0 && getchar() == '\n');
    strcpy(address, "older");
    CHECK(msync(address, SIZE, MS_SYNC) == 0);
    pause_for(0.3);
}

// Where a server differs from the kernel: a write past the end makes the file longer, and not the segment. A mapping
// that was moved counts to the end, and so does the thread that writes back.
static void differs(void)
{
    int fd = made();
    CHECK(ftruncate(fd, SIZE) == 0);
    char *address = mapped(fd, SIZE);
    strcpy(address, "kept");
    CHECK(pwrite(fd, "more", 5, 2 * SIZE) == 5 && length_of(fd) == 2 * SIZE + 5);
    address = mremap(address, SIZE, 100 * SIZE, MREMAP_MAYMOVE);
    CHECK(address != MAP_FAILED && munmap(address, 100 * SIZE) == 0 && close(fd) == 0);
    pause_for(0.3);
    CHECK(access("/proc/self/task", F_OK) == 0 && stat("/proc/self/task", &status) == 0 && status.st_nlink == 4);
}

// Another user may map what the mode lets it, and write it back; and may not remove it.
static void is_of_users(void)
{
    umask(0);
    shm_unlink("/ipcd_named");
    int fd = shm_open("/ipcd_named", O_RDWR | O_CREAT, 0666), other;
    CHECK(fd >= 0 && ftruncate(fd, SIZE) == 0);
    pid_t child = fork();
    if (child == 0) {
        alarm(60);
        CHECK(close(fd) == 0 && setgid(65534) == 0 && setuid(65534) == 0);
        execl(program, program, "as_user", NULL);
        _exit(1);
    }
    ends_well(child);
    char *address = mapped(fd, SIZE);
    CHECK(strcmp(address, "nobody") == 0 && munmap(address, SIZE) == 0 && close(fd) == 0);
    CHECK(shm_unlink("/ipcd_named") == 0 && (other = made()) >= 0 && close(other) == 0);
    CHECK(shm_unlink("/ipcd_named") == 0);
}

static void is_as_user(void)
{
    int fd = opened(O_RDWR | O_CREAT);
    CHECK(length_of(fd) == SIZE && status.st_uid == 0 && (status.st_mode & 0777) == 0666);
    char *address = mapped(fd, SIZE);
    strcpy(address, "nobody");
    CHECK(msync(address, SIZE, MS_SYNC) == 0);
    REFUSED(shm_unlink("/ipcd_named"), EACCES);
    REFUSED(shm_open("/ipcd_named", O_RDWR | O_CREAT | O_EXCL, 0666), EEXIST);
}

// Another user may not write the folder: then nothing is made at the server either.
static void has_no_folder(void)
{
    CHECK(setgid(65534) == 0 && setuid(65534) == 0);
    REFUSED(shm_open("/ipcd_named", O_RDWR | O_CREAT, 0600), EACCES);
    REFUSED(shm_open("/ipcd_named", O_RDWR, 0), ENOENT);
}

int main(int words, char **word)
{
    static void (*const parts[])(void) = {has_no_folder, is_written_again, is_anothers_after_a_restart, differs,
                                           is_of_users, is_as_user};
    static const char *const names[] = {"no_folder", "written_again", "restart", "differs", "users", "as_user"};
    alarm(60);
    program = word[0];
    for (size_t i = 0; words > 1 && i < sizeof parts / sizeof *parts; i++)
        if (strcmp(word[1], names[i]) == 0) {
            parts[i]();
            return 0;
        }
    is_opened();
    is_shared();
    is_copied();
    is_cut();
    is_unlinked();
    is_anothers();
    is_inherited();
    comes_and_goes();
    makes_many();
    if (words > 1 && strcmp(word[1], "most") == 0)
        has_most();
    return 0;
}
