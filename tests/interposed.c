// Stands before the C library's read and write (LD_PRELOAD). The letters of the variables READ and WRITE say what the calls do, one after
// another: i fails with EINTR, e fails with EIO, s moves at most 7 bytes; after the last letter a call does what it is asked to. SIGUSR1
// has a handler, installed without SA_RESTART. The file that LOG names gets a line when that is done, and one for each call that a signal
// interrupts.
#define _GNU_SOURCE
#include <errno.h>
#include <fcntl.h>
#include <signal.h>
#include <stdlib.h>
#include <string.h>
#include <sys/syscall.h>
#include <unistd.h>

static int log_file = -1;

static void note(const char *line)
{
    int error = errno;
    if (log_file >= 0)
        (void)!syscall(SYS_write, log_file, line, strlen(line));
    errno = error;
}

static void nothing(int number)
{
    (void)number;
}

__attribute__((constructor)) static void start(void)
{
    struct sigaction action = {.sa_handler = nothing};
    const char *path = getenv("LOG");
    sigaction(SIGUSR1, &action, NULL);
    if (path)
        log_file = open(path, O_WRONLY | O_CREAT | O_APPEND | O_CLOEXEC, 0600);
    note("started\n");
}

// The call, as the next letter of the variable says.
static ssize_t call(long number, const char *variable, size_t *at, int fd, void *bytes, size_t size)
{
    const char *letters = getenv(variable);
    char letter = letters && *at < strlen(letters) ? letters[(*at)++] : 0;
    if (letter == 'i' || letter == 'e') {
        errno = letter == 'i' ? EINTR : EIO;
        return -1;
    }
    ssize_t moved = syscall(number, fd, bytes, letter == 's' && size > 7 ? 7 : size);
    if (moved < 0 && errno == EINTR)
        note("interrupted\n");
    return moved;
}

ssize_t read(int fd, void *bytes, size_t size)
{
    static size_t at;
    return call(SYS_read, "READ", &at, fd, bytes, size);
}

ssize_t write(int fd, const void *bytes, size_t size)
{
    static size_t at;
    return call(SYS_write, "WRITE", &at, fd, (void *)bytes, size);
}
