/*
 * A library to preload: makes the reads of one file, and the writes to standard output, short, interrupted or failing. What it
 * does is said by environment variables, EDGE_READ_.. and EDGE_WRITE_..; calls are counted from 1.
 *   EDGE_READ_FILE        the name of the file whose reads are changed
 *   .._MOST               the most octets that a call moves
 *   .._EVERY              calls of this distance, beginning with the first, are interrupted
 *   .._INTERRUPT          the call that is interrupted
 *   .._FAIL, .._ERRNO     the call that fails, and its error; 0 is a call that moves nothing
 *   EDGE_REPORT           a file that gets a line for each call interrupted by .._INTERRUPT or failed: the octets moved before it
 */
#define _GNU_SOURCE
#include <errno.h>
#include <fcntl.h>
#include <stdio.h>
#include <stdlib.h>
#include <string.h>
#include <sys/syscall.h>
#include <unistd.h>

/* No program here runs so many seconds, unless it hangs. */
enum { LONGEST = 20 };

struct side {
    const char *name;
    long calls, octets;
    long most, every, interrupt, fail, error;
};

static struct side reads = {"READ", 0, 0, 0, 0, 0, 0, 0}, writes = {"WRITE", 0, 0, 0, 0, 0, 0, 0};
static const char *read_file;

static long setting(const struct side *side, const char *what)
{
    char name[40];
    snprintf(name, sizeof name, "EDGE_%s_%s", side->name, what);
    const char *value = getenv(name);
    return value ? atol(value) : 0;
}

static void set(struct side *side)
{
    side->most = setting(side, "MOST");
    side->every = setting(side, "EVERY");
    side->interrupt = setting(side, "INTERRUPT");
    side->fail = setting(side, "FAIL");
    side->error = setting(side, "ERRNO");
}

__attribute__((constructor)) static void start(void)
{
    read_file = getenv("EDGE_READ_FILE");
    set(&reads);
    set(&writes);
    alarm(LONGEST);
}

static void report(const struct side *side)
{
    const char *name = getenv("EDGE_REPORT");
    int file = name ? open(name, O_WRONLY | O_CREAT | O_APPEND, 0600) : -1;
    if (file < 0)
        abort();
    char line[40];
    int n = snprintf(line, sizeof line, "%s %ld\n", side->name, side->octets);
    if (syscall(SYS_write, file, line, n) != n)
        abort();
    close(file);
}

/* Whether a call of this side is to be made; else its answer is ready. */
static int goes_on(struct side *side, ssize_t *answer)
{
    long call = ++side->calls;
    *answer = -1;
    if (side->every && (call - 1) % side->every == 0) {
        errno = EINTR;
        return 0;
    }
    if (call == side->interrupt) {
        report(side);
        errno = EINTR;
        return 0;
    }
    if (call == side->fail) {
        report(side);
        if (side->error == 0)
            *answer = 0;
        else
            errno = (int)side->error;
        return 0;
    }
    return 1;
}

/* Whether a descriptor is the file's. */
static int is_read_file(int descriptor)
{
    char link[40], path[4096];
    snprintf(link, sizeof link, "/proc/self/fd/%d", descriptor);
    ssize_t n = readlink(link, path, sizeof path - 1);
    if (!read_file || n < 0)
        return 0;
    path[n] = 0;
    const char *name = strrchr(path, '/');
    return name && strcmp(name + 1, read_file) == 0;
}

static ssize_t moved(struct side *side, long number, int descriptor, const void *octets, size_t n)
{
    ssize_t answer;
    if (!goes_on(side, &answer))
        return answer;
    if (side->most && n > (size_t)side->most)
        n = (size_t)side->most;
    answer = syscall(number, descriptor, octets, n);
    if (answer > 0)
        side->octets += answer;
    return answer;
}

ssize_t read(int descriptor, void *octets, size_t n)
{
    if (!is_read_file(descriptor))
        return syscall(SYS_read, descriptor, octets, n);
    return moved(&reads, SYS_read, descriptor, octets, n);
}

ssize_t write(int descriptor, const void *octets, size_t n)
{
    if (descriptor != STDOUT_FILENO)
        return syscall(SYS_write, descriptor, octets, n);
    return moved(&writes, SYS_write, descriptor, octets, n);
}
