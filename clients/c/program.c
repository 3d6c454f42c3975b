// Which programs a library can be preloaded into: dynamic ones of 64 bits that run as their user.
#define _GNU_SOURCE
#include "program.h"

#include <elf.h>
#include <errno.h>
#include <fcntl.h>
#include <limits.h>
#include <stdio.h>
#include <stdlib.h>
#include <string.h>
#include <sys/stat.h>
#include <sys/xattr.h>
#include <unistd.h>

enum { HEAD = 256, INTERPRETERS = 5 };

static bool is_program(const char *path)
{
    struct stat file;
    return access(path, X_OK) == 0 && stat(path, &file) == 0 && S_ISREG(file.st_mode);
}

bool find_program(const char *name, char *path, size_t size)
{
    if (strchr(name, '/') != NULL)
        return (size_t) snprintf(path, size, "%s", name) < size && access(path, F_OK) == 0;
    const char *folders = getenv("PATH");
    if (folders == NULL)
        folders = "/usr/local/bin:/usr/bin:/bin";
    for (const char *at = folders; *name != 0; at++) {
        int length = (int) strcspn(at, ":");
        const char *folder = length == 0 ? "." : at;
        int bytes = snprintf(path, size, "%.*s/%s", length == 0 ? 1 : length, folder, name);
        if ((size_t) bytes < size && is_program(path))
            return true;
        at += length;
        if (*at == 0)
            break;
    }
    return false;
}

static const char *why_not_elf(int file, const Elf64_Ehdr *head)
{
    if (head->e_ident[EI_CLASS] != ELFCLASS64)
        return "a program of 32 bits is not redirected";
    for (unsigned i = 0; i < head->e_phnum; i++) {
        Elf64_Phdr part;
        if (pread(file, &part, sizeof part, (off_t) (head->e_phoff + i * sizeof part)) != sizeof part)
            break;
        if (part.p_type == PT_INTERP)
            return NULL;
    }
    return "a static program is not redirected";
}

// Makes the path of the interpreter of the first line of a script.
static bool has_interpreter(const char *head, char *path, size_t size)
{
    if (strncmp(head, "#!", 2) != 0)
        return false;
    const char *at = head + 2 + strspn(head + 2, " \t");
    int length = (int) strcspn(at, " \t\n");
    return length > 0 && (size_t) snprintf(path, size, "%.*s", length, at) < size;
}

// One program, not a script: it says in `path` which program runs it, if it is one.
static const char *why_not_this(char *path, size_t size, bool *is_script)
{
    union { Elf64_Ehdr elf; char text[HEAD + 1]; } head = {.text = {0}};
    struct stat status;
    *is_script = false;
    if (!is_program(path))
        return strerror(access(path, F_OK) == 0 ? EACCES : ENOENT);
    int file = open(path, O_RDONLY | O_CLOEXEC);
    if (file < 0)
        return "may not be read, so it is not known whether it is redirected";
    ssize_t come = read(file, head.text, HEAD);
    const char *why = NULL;
    if (fstat(file, &status) < 0 || come < 0)
        why = strerror(errno);
    else if (has_interpreter(head.text, path, size))
        *is_script = true;
    else if (status.st_mode & (S_ISUID | S_ISGID))
        why = "a set-uid or set-gid program is not redirected";
    else if (fgetxattr(file, "security.capability", NULL, 0) > 0)
        why = "a program with capabilities is not redirected";
    else if ((size_t) come < sizeof head.elf || memcmp(head.elf.e_ident, ELFMAG, SELFMAG) != 0)
        why = strerror(ENOEXEC);
    else
        why = why_not_elf(file, &head.elf);
    close(file);
    return why;
}

const char *why_not_redirected(const char *name)
{
    char path[PATH_MAX];
    snprintf(path, sizeof path, "%s", name);
    for (int i = 0; i < INTERPRETERS; i++) {
        bool is_script;
        const char *why = why_not_this(path, sizeof path, &is_script);
        if (why != NULL || !is_script)
            return why;
    }
    return strerror(ELOOP);
}
