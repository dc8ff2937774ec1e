/* `refs-session` as a library: one call, which is one session. Link with librefs.so, which `clients/build` makes. */
#ifndef REFS_H
#define REFS_H

#include <stddef.h>
#include <stdint.h>

/* Puts the next bytes of the session's input into `buf`, at most `room` of them, and returns how many; 0 ends the input,
   and is to be returned again whenever it is called after that. */
typedef ptrdiff_t (*refs_read)(void *context, uint8_t *buf, size_t room);

/* Takes `len` bytes that the session writes to the descriptor `fd`: answers to 1, errors to 2. Returns `len`. */
typedef ptrdiff_t (*refs_write)(void *context, int fd, const uint8_t *bytes, size_t len);

/* Runs a session with the words `argv`, of which the first is the name of the program and the second the git folder, until its input
   ends or it fails, and returns its exit status. `read` is called while locks are held, after `prepare: ok`: so a vote can be taken
   there. Calls in several threads do not meet, each with a context of its own. A write to a closed pipe no longer ends the process
   afterwards, since the program ignores SIGPIPE. */
int refs_main(int argc, const char *const *argv, refs_read read, refs_write write, void *context);

#endif
