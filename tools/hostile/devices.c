/* Makes standard input and output of the program that it is preloaded into misbehave. Of each, by the environment:
   READ_EACH, WRITE_EACH: the most bytes that a call moves.
   READ_FAILS, WRITE_FAILS: after so many bytes each call fails.
   WRITE_STOPS: after so many bytes each call takes nothing. */
#define _GNU_SOURCE
#include <dlfcn.h>
#include <errno.h>
#include <stdlib.h>
#include <unistd.h>

static long setting(const char *name) {
    const char *text = getenv(name);
    return text ? atol(text) : -1;
}

/* The bytes that a call may move, where so many of them have been moved: -1 if it fails. */
static ssize_t allowed(size_t size, size_t moved, long each, long fails, long stops) {
    if (fails >= 0 && moved >= (size_t)fails) return -1;
    if (fails >= 0 && size > (size_t)fails - moved) size = (size_t)fails - moved;
    if (stops >= 0 && moved >= (size_t)stops) return 0;
    if (stops >= 0 && size > (size_t)stops - moved) size = (size_t)stops - moved;
    return each > 0 && size > (size_t)each ? each : (ssize_t)size;
}

ssize_t read(int file, void *to, size_t size) {
    static ssize_t (*real)(int, void *, size_t);
    static size_t moved;
    if (!real) real = (ssize_t (*)(int, void *, size_t))dlsym(RTLD_NEXT, "read");
    if (file != 0) return real(file, to, size);
    ssize_t most = allowed(size, moved, setting("READ_EACH"), setting("READ_FAILS"), -1);
    if (most < 0) return errno = EIO, -1;
    ssize_t done = real(file, to, most);
    if (done > 0) moved += done;
    return done;
}

ssize_t write(int file, const void *from, size_t size) {
    static ssize_t (*real)(int, const void *, size_t);
    static size_t moved;
    if (!real) real = (ssize_t (*)(int, const void *, size_t))dlsym(RTLD_NEXT, "write");
    if (file != 1) return real(file, from, size);
    ssize_t most = allowed(size, moved, setting("WRITE_EACH"), setting("WRITE_FAILS"), setting("WRITE_STOPS"));
    if (most < 0) return errno = EIO, -1;
    ssize_t done = most ? real(file, from, most) : 0;
    if (done > 0) moved += done;
    return done;
}
