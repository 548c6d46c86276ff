/* The process around the proved command: what a program of Rattle cannot ask the system for. Before the command runs, the signal of a file that
 * may not grow is ignored, so that this is told as a failed write. And a file's name is any bytes, where the language has text: linked with
 * -Wl,--wrap=open,--wrap=unlink,--wrap=rename,--wrap=mkdir, the command's calls on names come here, and the characters by which host tells a name
 * that is no text (crates/host/src/names.rt) are turned back. It decides nothing else. */
#include <fcntl.h>
#include <limits.h>
#include <signal.h>
#include <stdarg.h>
#include <stdio.h>
#include <sys/stat.h>
#include <unistd.h>

int __real_open(const char *name, int flags, ...);
int __real_unlink(const char *name);
int __real_rename(const char *from, const char *to);
int __real_mkdir(const char *name, mode_t mode);

/* The first of the four bytes of the characters U+10FF80 to U+10FFFF, each of which stands for one byte from 128 on: it is in no other text. */
enum { FIRST = 0xf4 };

/* The bytes of a name, which are never more than those of its text. */
static const char *bytes_of(const char *text, char *name) {
    const unsigned char *at = (const unsigned char *)text;
    size_t size = 0;
    while (*at != 0 && size < PATH_MAX - 1) {
        if (*at == FIRST && at[1] != 0 && at[2] != 0 && at[3] != 0) {
            name[size++] = (char)((at[2] & 3) << 6 | (at[3] & 63));
            at += 4;
        } else
            name[size++] = (char)*at++;
    }
    name[size] = 0;
    return name;
}

int __wrap_open(const char *text, int flags, ...) {
    char name[PATH_MAX];
    va_list rest;
    va_start(rest, flags);
    mode_t mode = flags & O_CREAT ? va_arg(rest, mode_t) : 0;
    va_end(rest);
    return __real_open(bytes_of(text, name), flags, mode);
}

int __wrap_unlink(const char *text) {
    char name[PATH_MAX];
    return __real_unlink(bytes_of(text, name));
}

int __wrap_rename(const char *text, const char *other) {
    char from[PATH_MAX], to[PATH_MAX];
    return __real_rename(bytes_of(text, from), bytes_of(other, to));
}

int __wrap_mkdir(const char *text, mode_t mode) {
    char name[PATH_MAX];
    return __real_mkdir(bytes_of(text, name), mode);
}

__attribute__((constructor)) static void have_failed_writes_told(void) {
    if (signal(SIGXFSZ, SIG_IGN) == SIG_ERR) _exit(2);
}
