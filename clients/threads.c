/* Four threads in one process, each with a session of its own on a repository of its own, which makes 100 transactions:
   threads ID GITDIR GITDIR GITDIR GITDIR. Prints a line for each repository. */
#include "refs.h"
#include <pthread.h>
#include <stdio.h>
#include <string.h>

#define THREADS 4
#define TURNS 100

struct run {
    const char *dir, *id;
    int turn, committed, status;
};

static ptrdiff_t say(void *context, uint8_t *buf, size_t room)
{
    struct run *run = context;
    if (run->turn == TURNS)
        return 0;
    return snprintf((char *)buf, room, "start\nupdate refs/heads/t%d %s\nprepare\ncommit\n", run->turn++, run->id);
}

static ptrdiff_t hear(void *context, int fd, const uint8_t *bytes, size_t len)
{
    struct run *run = context;
    if (fd == 1 && len == 11 && memcmp(bytes, "commit: ok\n", 11) == 0)
        run->committed++;
    if (fd == 2)
        fwrite(bytes, 1, len, stderr);
    return (ptrdiff_t)len;
}

static void *session(void *context)
{
    struct run *run = context;
    const char *words[] = {"refs-session", run->dir, "--without-syncs"};
    run->status = refs_main(3, words, say, hear, run);
    return NULL;
}

int main(int argc, char **argv)
{
    struct run runs[THREADS];
    pthread_t threads[THREADS];
    int failed = 0;
    if (argc != 2 + THREADS) {
        fprintf(stderr, "usage: threads ID GITDIR GITDIR GITDIR GITDIR\n");
        return 2;
    }
    for (int i = 0; i < THREADS; i++) {
        runs[i] = (struct run){argv[2 + i], argv[1], 0, 0, -1};
        if (pthread_create(&threads[i], NULL, session, &runs[i]) != 0)
            return 1;
    }
    for (int i = 0; i < THREADS; i++) {
        pthread_join(threads[i], NULL);
        printf("%s: status %d, %d committed\n", runs[i].dir, runs[i].status, runs[i].committed);
        failed |= runs[i].status != 0 || runs[i].committed != TURNS;
    }
    return failed;
}
