/* read() for host/test_program, of which some calls fail. READS has a letter for each call in turn: a digit reads at most so many
 * bytes, x fails, r reads as usual; so do all calls behind the last letter. */
#define _GNU_SOURCE
#include <errno.h>
#include <stdlib.h>
#include <sys/syscall.h>
#include <sys/types.h>
#include <unistd.h>

ssize_t read(int fd, void *bytes, size_t length)
{
    static const char *next;
    if (!next)
        next = getenv("READS") ? getenv("READS") : "";
    char way = *next ? *next++ : 'r';
    if (way == 'x') {
        errno = EIO;
        return -1;
    }
    if (way != 'r' && length > (size_t)(way - '0'))
        length = (size_t)(way - '0');
    return (ssize_t)syscall(SYS_read, fd, bytes, length);
}
