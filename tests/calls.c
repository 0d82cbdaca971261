/* Stands before the C library's read, write and nanosleep in a program that is tested: by the letters of CALLS_READ and CALLS_WRITE, one
 * for each call on standard input or output, it lets a call move little, or refuses it. The last letter stands for all calls after it.
 *
 *   a  all that the call is asked      s  one to seven bytes of it      i  EINTR      w  EAGAIN      e  EIO      z  nothing
 *
 * A wait takes no time. Where it is unloaded it writes how many calls there were to the file CALLS_LOG. */
#define _GNU_SOURCE
#include <errno.h>
#include <stdio.h>
#include <stdlib.h>
#include <string.h>
#include <sys/syscall.h>
#include <time.h>
#include <unistd.h>

static long reads, writes, waits;

/* The letter of the n-th call. */
static char letter(const char *name, long n) {
    const char *letters = getenv(name);
    if (!letters || !*letters) return 'a';
    long last = (long)strlen(letters) - 1;
    return letters[n < last ? n : last];
}

/* How many bytes a call moves, or -1. */
static ssize_t allowed(char how, long n, size_t asked) {
    switch (how) {
    case 's': return asked < 8 ? (asked > 0) : 1 + n % 7;
    case 'z': return 0;
    case 'i': errno = EINTR; return -1;
    case 'w': errno = EAGAIN; return -1;
    case 'e': errno = EIO; return -1;
    default: return (ssize_t)asked;
    }
}

/* Counts a call and limits what it is asked. Whether it is still to be made; if not, the answer is in errno and 'count', which is 0 or -1. */
static int limit(const char *name, long *calls, ssize_t *count) {
    *count = allowed(letter(name, *calls), *calls, (size_t)*count);
    ++*calls;
    return *count > 0;
}

ssize_t read(int fd, void *to, size_t asked) {
    ssize_t count = (ssize_t)asked;
    if (fd == 0 && !limit("CALLS_READ", &reads, &count)) return count;
    return syscall(SYS_read, fd, to, (size_t)count);
}

ssize_t write(int fd, const void *from, size_t asked) {
    ssize_t count = (ssize_t)asked;
    if (fd == 1 && !limit("CALLS_WRITE", &writes, &count)) return count;
    return syscall(SYS_write, fd, from, (size_t)count);
}

int nanosleep(const struct timespec *asked, struct timespec *left) {
    (void)asked, (void)left;
    waits++;
    return 0;
}

__attribute__((destructor)) static void tell(void) {
    const char *name = getenv("CALLS_LOG");
    FILE *log = name ? fopen(name, "w") : NULL;
    if (!log) return;
    fprintf(log, "%ld %ld %ld\n", reads, writes, waits);
    fclose(log);
}
