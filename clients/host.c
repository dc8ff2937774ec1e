/* The program `refs-session` inside of another program: its words, its standard input and its standard output are those that the
   host gives to `refs_main`. `clients/build` links this with the program's object file, in which `main`, `read`, `write` and `lseek`
   have been renamed. */
#include "refs.h"
#include <errno.h>
#include <string.h>
#include <unistd.h>

static _Thread_local struct {
    int argc;
    const char *const *argv;
    refs_read read;
    refs_write write;
    void *context;
} host;

extern int rattle_main(int argc, char **argv);

int refs_main(int argc, const char *const *argv, refs_read read, refs_write write, void *context)
{
    host.argc = argc;
    host.argv = argv;
    host.read = read;
    host.write = write;
    host.context = context;
    int status = rattle_main(argc, (char **)argv);
    memset(&host, 0, sizeof host);
    return status;
}

/* The words of the call, where a program has those of its process. */
size_t rattle_arg_count(void)
{
    return (size_t)host.argc;
}

ptrdiff_t rattle_arg(size_t at, uint8_t *buf, size_t room)
{
    if (at >= (size_t)host.argc)
        return -1;
    size_t len = strlen(host.argv[at]);
    memcpy(buf, host.argv[at], len < room ? len : room);
    return len <= room ? (ptrdiff_t)len : -2;
}

/* The descriptors 0, 1 and 2 are the host's. All others are files. */
ptrdiff_t rattle_read(int fd, uint8_t *buf, size_t room)
{
    return fd == 0 ? host.read(host.context, buf, room) : read(fd, buf, room);
}

ptrdiff_t rattle_write(int fd, const uint8_t *bytes, size_t len)
{
    return fd == 1 || fd == 2 ? host.write(host.context, fd, bytes, len) : write(fd, bytes, len);
}

long rattle_lseek(int fd, long offset, int whence)
{
    if (fd <= 2) {
        errno = ESPIPE;
        return -1;
    }
    return lseek(fd, offset, whence);
}
