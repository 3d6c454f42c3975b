// Says who has sent last to a queue: this process, or with the word `last` whoever did before it; and again for each
// line. As another user, with `as=`. With `two` it has two connections.
#define _GNU_SOURCE
#include <sys/ipc.h>
#include <sys/msg.h>

#include "check.h"

static struct { long type; char text[1]; } message = {1, "x"};
static struct msqid_ds record;

static int queue_of_all(void)
{
    int queue = msgget(0x69706371, IPC_CREAT | 0666);
    CHECK(queue >= 0);
    return queue;
}

static void become(uid_t user)
{
    CHECK(setgid(user) == 0 && setuid(user) == 0);
}

#ifdef PREFIXED
static void wait_for_a_line(const char *after)
{
    char line[16];
    CHECK(puts(after) >= 0 && fflush(stdout) == 0 && fgets(line, sizeof line, stdin) != NULL);
}

// The server ends. Then the number of the connection that has not heard of it is that of the other.
static void has_two(void)
{
    int queue = queue_of_all();
    struct ipcd *other = ipcd_connect(NULL);
    CHECK(other != NULL);
    wait_for_a_line("1");
    REFUSED(msgctl(queue, IPC_STAT, &record), ECONNRESET);
    CHECK(msgsnd(queue, &message, 1, 0) == 0);
    ipcd_disconnect(other);
    wait_for_a_line("2");
}
#endif

int main(int count, char **words)
{
    char line[16];
    const char *word = count > 1 ? words[1] : "";
#ifdef PREFIXED
    if (strcmp(word, "two") == 0) {
        has_two();
        return 0;
    }
#endif
    if (strncmp(word, "as=", 3) == 0)
        become((uid_t) strtoul(word + 3, NULL, 10));
    int queue = queue_of_all();
    CHECK(strcmp(word, "last") == 0 || msgsnd(queue, &message, 1, 0) == 0);
    do {
        CHECK(msgctl(queue, IPC_STAT, &record) == 0);
        CHECK(printf("%d\n", (int) record.msg_lspid) > 0 && fflush(stdout) == 0);
    } while (fgets(line, sizeof line, stdin) != NULL);
    return 0;
}
