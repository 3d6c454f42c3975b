// The words of a request of ipcd-ask, see ipcd-ask(1).
#ifndef ASK_WORDS_H
#define ASK_WORDS_H

#include <stdbool.h>
#include <stddef.h>

// The most words of a request.
enum { WORDS_MOST = 70 };

// A word of a request: its bytes, and what it means where a number or a length of time is wanted.
struct word {
    char *text;
    size_t size;
    long number;
    double seconds;
};

struct request {
    int count;
    struct word words[WORDS_MOST];
};

// The number that `$` stands for: what the last get, open or attach has answered; -1 before the first,
// and after a refused one, so that no later request goes to another object.
extern long made;

// Numbers and names of <sys/ipc.h> and its like, joined by `|`, as in C; or `$`.
bool read_number(const char *text, long *number);

// Whether the words after the name are those of the call. `bad` is the one that is not, or NULL if their count is wrong.
bool are_of(const char *forms, struct word *words, int count, const struct word **bad);

// The words of a line. `room` takes them, with a zero after each.
bool read_request(const char *line, struct request *request, char *room);

#endif
