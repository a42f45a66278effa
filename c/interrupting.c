/* A C library whose read and write are interrupted by a signal every second time, and that reads three bytes at once: for
** LD_PRELOAD under the checking program, whose loops have to make such calls again.
*/
#define _GNU_SOURCE
#include <errno.h>
#include <sys/syscall.h>
#include <unistd.h>

static unsigned calls;

static int interrupted(void)
{
    errno = EINTR;
    return calls++ % 2 == 0;
}

ssize_t read(int fd, void *buffer, size_t size)
{
    return interrupted() ? -1 : syscall(SYS_read, fd, buffer, size < 3 ? size : 3);
}

ssize_t write(int fd, const void *buffer, size_t size)
{
    return interrupted() ? -1 : syscall(SYS_write, fd, buffer, size);
}
