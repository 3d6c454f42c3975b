// The words of a request of ipcd-ask: how they are written, and what a number, a name and a length of time is.
#define _GNU_SOURCE
#include "ask_words.h"

#include <errno.h>
#include <fcntl.h>
#include <limits.h>
#include <stdint.h>
#include <stdlib.h>
#include <string.h>
#include <sys/ipc.h>
#include <sys/msg.h>
#include <sys/sem.h>
#include <sys/shm.h>

// The longest wait is a thousand years, so that its end fits into a time.
#define SECONDS_MOST 31536000000.0

long made = -1;

struct constant {
    const char *name;
    long value;
};

#define NAMED(name) {#name, name}
static const struct constant constants[] = {
    NAMED(IPC_PRIVATE), NAMED(IPC_CREAT), NAMED(IPC_EXCL), NAMED(IPC_NOWAIT), NAMED(IPC_RMID), NAMED(IPC_SET),
    NAMED(IPC_STAT), NAMED(MSG_NOERROR), NAMED(MSG_EXCEPT), NAMED(SEM_UNDO), NAMED(GETVAL), NAMED(GETPID),
    NAMED(GETNCNT), NAMED(GETZCNT), NAMED(GETALL), NAMED(SETVAL), NAMED(SETALL), NAMED(SHM_RDONLY),
    NAMED(O_RDONLY), NAMED(O_WRONLY), NAMED(O_RDWR), NAMED(O_CREAT), NAMED(O_EXCL), NAMED(O_TRUNC), NAMED(O_NONBLOCK),
};

static bool read_constant(const char *name, long *number)
{
    for (size_t i = 0; i < sizeof constants / sizeof *constants; i++)
        if (strcmp(constants[i].name, name) == 0) {
            *number = constants[i].value;
            return true;
        }
    char *end;
    errno = 0;
    *number = strtol(name, &end, 0);
    return *name > ' ' && *end == 0 && end != name && errno == 0;
}

bool read_number(const char *text, long *number)
{
    char copy[256], *rest = copy;
    if (strcmp(text, "$") == 0) {
        *number = made;
        return made >= 0;
    }
    if (strlen(text) >= sizeof copy)
        return false;
    strcpy(copy, text);
    *number = 0;
    while (rest != NULL) {
        long part;
        if (!read_constant(strsep(&rest, "|"), &part))
            return false;
        *number |= part;
    }
    return true;
}

static bool read_seconds(const char *text, double *seconds)
{
    char *end;
    *seconds = strtod(text, &end);
    return *text > ' ' && end != text && *end == 0 && *seconds >= 0 && *seconds <= SECONDS_MOST;
}

// Whether a word is of its form; then its number or its seconds are read.
static bool is_of(char form, struct word *word)
{
    if (form == 't')
        return true;
    if (strlen(word->text) != word->size)
        return false;
    if (form == 's')
        return read_seconds(word->text, &word->seconds);
    if (form == 'n' || form == '+' || form == '*')
        return true;
    if (!read_number(word->text, &word->number))
        return false;
    return form == 'l' || (word->number >= INT_MIN && word->number <= UINT_MAX);
}

bool are_of(const char *forms, struct word *words, int count, const struct word **bad)
{
    bool is_optional = false;
    int at = 0;
    *bad = NULL;
    for (; *forms != 0; forms++) {
        if (*forms == '/') {
            is_optional = true;
            continue;
        }
        bool is_list = *forms == '+' || *forms == '*';
        if (at == count)
            return is_optional || *forms == '*';
        do {
            if (!is_of(*forms, &words[at])) {
                *bad = &words[at];
                return false;
            }
            at++;
        } while (is_list && at < count);
    }
    return at == count;
}

static int digit(char letter)
{
    const char *digits = "0123456789abcdef";
    const char *at = letter == 0 ? NULL : strchr(digits, letter >= 'A' && letter <= 'F' ? letter + 32 : letter);
    return at == NULL ? -1 : (int) (at - digits);
}

// One byte of a word between quotes: `\n`, `\t`, `\xHH`, `\"`, `\\`, or itself. Answers where the next begins, or NULL.
static const char *read_byte(const char *from, char *byte)
{
    if (*from != '\\') {
        *byte = *from;
        return from + 1;
    }
    *byte = from[1] == 'n' ? '\n' : from[1] == 't' ? '\t' : from[1];
    if (from[1] == 'x') {
        if (digit(from[2]) < 0 || digit(from[3]) < 0)
            return NULL;
        *byte = (char) (digit(from[2]) * 16 + digit(from[3]));
        return from + 4;
    }
    return from[1] != 0 && strchr("nt\"\\", from[1]) != NULL ? from + 2 : NULL;
}

// Reads one word into `to`, which has room for all that is left: where it ends, or NULL if its quotes are wrong.
static const char *read_word(const char *from, struct word *word, char *to)
{
    *word = (struct word){.text = to};
    if (*from != '"') {
        word->size = strcspn(from, " \t");
        memcpy(to, from, word->size);
        to[word->size] = 0;
        return from + word->size;
    }
    for (from++; from != NULL && *from != '"'; word->size++)
        from = *from == 0 ? NULL : read_byte(from, &to[word->size]);
    to[word->size] = 0;
    return from != NULL && (from[1] == 0 || from[1] == ' ' || from[1] == '\t') ? from + 1 : NULL;
}

bool read_request(const char *line, struct request *request, char *room)
{
    request->count = 0;
    for (line += strspn(line, " \t"); *line != 0; line += strspn(line, " \t")) {
        if (request->count == WORDS_MOST)
            return false;
        struct word *word = &request->words[request->count++];
        line = read_word(line, word, room);
        if (line == NULL)
            return false;
        room += word->size + 1;
    }
    return true;
}
