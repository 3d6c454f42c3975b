// What no call shows: that a call ends on the client on which it began, whatever its thread uses by then, and that pages
// may be longer than 4096 bytes. It has the library's sources within.
#define _GNU_SOURCE
#include <unistd.h>

#include "../client.h"
#include "../memory.h"
#include "check.h"

static long page_size;

// The library asks this one, so pages are as long as the test says.
long sysconf(int name)
{
    return name == _SC_PAGESIZE ? page_size : -1;
}

// A handler may choose another connection in the midst of a call.
static void ends_where_it_began(void)
{
    struct ipcd *first = ipcd_connect(NULL), *second = ipcd_connect(NULL);
    CHECK(first != NULL && second != NULL);
    ipcd_use(first);
    struct link *link = begin(MSGGET);
    CHECK(link != NULL && link->busy);
    unsigned of_first = first->releases, of_second = second->releases;
    ipcd_use(second);
    end(link, 0);
    CHECK(!link->busy);
    CHECK(first->releases == of_first + 1 && first->answers > 0);
    CHECK(second->releases == of_second);
    ipcd_use(NULL);
    ipcd_disconnect(first);
    ipcd_disconnect(second);
}

// The first call of a new connection is its own, too.
static void begins_on_its_own(void)
{
    struct ipcd *process = current_client();
    unsigned before = process->releases;
    struct ipcd *made = ipcd_connect(NULL);
    CHECK(made != NULL && made->releases == 1 && process->releases == before);
    ipcd_disconnect(made);
}

static void has_other_pages(void)
{
    const char *last_of_short = (const char *) 0x10ffc;
    page_size = 65536;
    CHECK(is_in_page(last_of_short, 8));
    CHECK(!is_in_page((const char *) 0x1fffc, 8));
    // The first page is of nobody's, and no call of the system is made for it.
    CHECK(!is_readable((const char *) 0x8000, 1));
    page_size = 4096;
    CHECK(!is_in_page(last_of_short, 8));
}

int main(void)
{
    page_size = 4096;
    ends_where_it_began();
    begins_on_its_own();
    has_other_pages();
    return 0;
}
