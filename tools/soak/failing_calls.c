/* Loaded before the C library. Of the calls below that concern standard input or output, or a file whose path has
   FAIL_ROOM in it, the one of number FAIL_AT fails with FAIL_ERRNO, and with FAIL_MORE all after it too. The first that
   fails is told by a byte to the file FAIL_TELLS. A file that is closed so is closed all the same. */
#define _GNU_SOURCE
#include <dlfcn.h>
#include <errno.h>
#include <fcntl.h>
#include <stdarg.h>
#include <stdlib.h>
#include <string.h>
#include <sys/stat.h>
#include <sys/syscall.h>
#include <unistd.h>

#define FILES 1024

static long at, more, tells, number;
static int cause;
static const char *room;
static char ours[FILES] = {1, 1};

static long given(const char *name) {
    const char *text = getenv(name);
    return text ? atol(text) : 0;
}

__attribute__((constructor)) static void begin(void) {
    room = getenv("FAIL_ROOM");
    more = given("FAIL_MORE");
    tells = given("FAIL_TELLS");
    cause = (int)given("FAIL_ERRNO");
    at = given("FAIL_AT");
}

static int is_ours(int file) { return file >= 0 && file < FILES && ours[file]; }

static int is_there(const char *path) { return room && path && strstr(path, room); }

static int fails(int counts) {
    if (!at || !counts) return 0;
    number++;
    if (number != at && !(more && number > at)) return 0;
    if (number == at) syscall(SYS_write, (int)tells, "", 1L);
    errno = cause;
    return 1;
}

static int opened(int file, int counts) {
    if (file >= 0 && file < FILES) ours[file] = (char)counts;
    return file;
}

#define REAL(name) ((__typeof__(&name))dlsym(RTLD_NEXT, #name))
#define OF_FILE(result, name, words, passed) \
    result name words { return fails(is_ours(file)) ? -1 : REAL(name) passed; }
#define OF_PATH(result, name, words, passed) \
    result name words { return fails(is_there(path)) ? -1 : REAL(name) passed; }
#define OPENS(name, words, passed) \
    int name words { \
        va_list list; \
        va_start(list, how); \
        int mode = how & (O_CREAT | O_TMPFILE) ? va_arg(list, int) : 0; \
        va_end(list); \
        return fails(is_there(path)) ? -1 : opened(REAL(name) passed, is_there(path)); \
    }

OPENS(open, (const char *path, int how, ...), (path, how, mode))
OPENS(open64, (const char *path, int how, ...), (path, how, mode))
OPENS(openat, (int folder, const char *path, int how, ...), (folder, path, how, mode))
OPENS(openat64, (int folder, const char *path, int how, ...), (folder, path, how, mode))
OF_FILE(ssize_t, read, (int file, void *to, size_t size), (file, to, size))
OF_FILE(ssize_t, write, (int file, const void *from, size_t size), (file, from, size))
OF_FILE(ssize_t, pread, (int file, void *to, size_t size, off_t place), (file, to, size, place))
OF_FILE(ssize_t, pread64, (int file, void *to, size_t size, off64_t place), (file, to, size, place))
OF_FILE(ssize_t, pwrite, (int file, const void *from, size_t size, off_t place), (file, from, size, place))
OF_FILE(ssize_t, pwrite64, (int file, const void *from, size_t size, off64_t place), (file, from, size, place))
OF_FILE(int, fsync, (int file), (file))
OF_FILE(int, fdatasync, (int file), (file))
OF_FILE(int, ftruncate, (int file, off_t size), (file, size))
OF_FILE(int, ftruncate64, (int file, off64_t size), (file, size))
OF_FILE(off_t, lseek, (int file, off_t place, int from), (file, place, from))
OF_FILE(int, fchmod, (int file, mode_t mode), (file, mode))
OF_FILE(int, flock, (int file, int how), (file, how))
OF_FILE(int, fstat, (int file, struct stat *found), (file, found))
OF_FILE(int, fstat64, (int file, struct stat64 *found), (file, found))
OF_PATH(int, stat, (const char *path, struct stat *found), (path, found))
OF_PATH(int, stat64, (const char *path, struct stat64 *found), (path, found))
OF_PATH(int, lstat, (const char *path, struct stat *found), (path, found))
OF_PATH(int, statx, (int folder, const char *path, int how, unsigned what, struct statx *found),
        (folder, path, how, what, found))
OF_PATH(int, mkdir, (const char *path, mode_t mode), (path, mode))
OF_PATH(int, rename, (const char *path, const char *other), (path, other))
OF_PATH(int, link, (const char *path, const char *other), (path, other))
OF_PATH(int, unlink, (const char *path), (path))
OF_PATH(int, access, (const char *path, int how), (path, how))

int close(int file) {
    int counts = is_ours(file), ended = REAL(close)(file);
    opened(file, 0);
    return fails(counts) ? -1 : ended;
}

#define CONTROLS(name) \
    int name(int file, int what, ...) { \
        va_list list; \
        va_start(list, what); \
        void *value = va_arg(list, void *); \
        va_end(list); \
        return fails(is_ours(file)) ? -1 : REAL(name)(file, what, value); \
    }

CONTROLS(fcntl)
CONTROLS(fcntl64)

ssize_t sendfile(int target, int file, off_t *place, size_t size) {
    ssize_t (*real)(int, int, off_t *, size_t) = (ssize_t(*)(int, int, off_t *, size_t))dlsym(RTLD_NEXT, "sendfile");
    return fails(is_ours(file)) ? -1 : real(target, file, place, size);
}
