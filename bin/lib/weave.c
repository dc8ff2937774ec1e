// Runs two programs side by side, each halted before a call on files that the schedule names; for `bin/try-writers`. Linux alone.
//
// usage: weave SCHEDULE PREFIX -- A WORD.. --- B WORD..
//
// SCHEDULE has parts with commas between them: `A5` runs A until five more of its calls on files are done and the next one is about to
// begin, `B*` runs B to its end. What has not ended after the last part runs to its end, A first. A part of a program that has ended does nothing.
//
// Calls that count are those that look at, make, change or remove what has `refs`, `HEAD` or `logs` in its path. Programs that A or B begin
// are not halted. PREFIX.A.in is the input of A, where it is there; PREFIX.A.out, PREFIX.A.err and PREFIX.A.calls (one line for each
// call that counts) are written, and PREFIX.ends: `A STATUS` and `B STATUS`, for each that was begun.
#define _GNU_SOURCE
#include <fcntl.h>
#include <signal.h>
#include <stdio.h>
#include <stdlib.h>
#include <string.h>
#include <sys/ptrace.h>
#include <sys/syscall.h>
#include <sys/wait.h>
#include <unistd.h>

enum { DESCRIPTOR = -1 };

// A call of the system, and which of its arguments is the path.
static const struct call { long number; const char *name; int path; } calls[] = {
#ifdef SYS_open
    {SYS_open, "open", 0},       {SYS_stat, "stat", 0},         {SYS_lstat, "lstat", 0},
    {SYS_access, "access", 0},   {SYS_rename, "rename", 0},     {SYS_unlink, "unlink", 0},
    {SYS_mkdir, "mkdir", 0},     {SYS_rmdir, "rmdir", 0},       {SYS_link, "link", 0},
    {SYS_readlink, "readlink", 0},
#endif
    {SYS_openat, "open", 1},     {SYS_newfstatat, "stat", 1},   {SYS_statx, "stat", 1},
    {SYS_faccessat, "access", 1}, {SYS_renameat, "rename", 1},  {SYS_renameat2, "rename", 1},
    {SYS_unlinkat, "unlink", 1}, {SYS_mkdirat, "mkdir", 1},     {SYS_linkat, "link", 1},
    {SYS_readlinkat, "readlink", 1},
    {SYS_write, "write", DESCRIPTOR}, {SYS_pwrite64, "write", DESCRIPTOR},
    {SYS_getdents64, "list", DESCRIPTOR}, {SYS_ftruncate, "truncate", DESCRIPTOR},
};

struct program {
    char name;
    char **words;
    pid_t pid;
    int begun, ended, status;
    int halted; // before a call that counts
    FILE *log;
};

static const char *prefix;

// The text at an address of a process.
static void text_at(pid_t pid, unsigned long address, char *text, size_t size) {
    char name[64];
    snprintf(name, sizeof name, "/proc/%d/mem", pid);
    int memory = open(name, O_RDONLY | O_CLOEXEC);
    ssize_t read = pread(memory, text, size - 1, (off_t)address);
    text[read < 0 ? 0 : read] = 0;
    close(memory);
}

// The path of an open file of a process; empty for the standard ones.
static void path_of(pid_t pid, int descriptor, char *path, size_t size) {
    char name[64];
    snprintf(name, sizeof name, "/proc/%d/fd/%d", pid, descriptor);
    ssize_t read = descriptor < 3 ? 0 : readlink(name, path, size - 1);
    path[read < 0 ? 0 : read] = 0;
    char *inside = strstr(path, ".git/"); // the folder around it may have any name
    memmove(path, inside ? inside : "", strlen(inside ? inside : "") + 1);
}

// Whether a call counts; if it does, its line.
static int counts(pid_t pid, const struct __ptrace_syscall_info *info, char *line, size_t size) {
    char path[4096];
    for (size_t i = 0; i < sizeof calls / sizeof *calls; i++) {
        if (calls[i].number != (long)info->entry.nr) continue;
        if (calls[i].path == DESCRIPTOR) path_of(pid, (int)info->entry.args[0], path, sizeof path);
        else text_at(pid, info->entry.args[calls[i].path], path, sizeof path);
        if (path[0] == '/' || strstr(path, "objects/")) return 0;
        if (!strstr(path, "refs") && !strstr(path, "HEAD") && !strstr(path, "logs")) return 0;
        snprintf(line, size, "%s %s", calls[i].name, path);
        return 1;
    }
    return 0;
}

static void redirect(char name, const char *what, int descriptor, int flags) {
    char path[4096];
    snprintf(path, sizeof path, "%s.%c.%s", prefix, name, what);
    int file = open(path, flags, 0666);
    if (file < 0) file = open("/dev/null", O_RDWR);
    dup2(file, descriptor);
    close(file);
}

static void end(struct program *p, int status) {
    p->ended = 1;
    p->status = status;
}

static void begin(struct program *p) {
    p->begun = 1;
    p->pid = fork();
    if (p->pid == 0) {
        redirect(p->name, "in", 0, O_RDONLY);
        redirect(p->name, "out", 1, O_WRONLY | O_CREAT | O_TRUNC);
        redirect(p->name, "err", 2, O_WRONLY | O_CREAT | O_TRUNC);
        ptrace(PTRACE_TRACEME, 0, 0, 0);
        execvp(p->words[0], p->words);
        _exit(127);
    }
    int status;
    waitpid(p->pid, &status, 0);
    if (!WIFSTOPPED(status)) {
        fprintf(stderr, "weave: %s cannot be traced\n", p->words[0]);
        exit(3);
    }
    ptrace(PTRACE_SETOPTIONS, p->pid, 0, PTRACE_O_TRACESYSGOOD | PTRACE_O_EXITKILL);
}

// Goes on until so many more calls that count are done, and the next one is about to begin; to its end where `left` is negative.
static void go_on(struct program *p, int left) {
    char line[4200];
    int passed_on = 0;
    if (!p->begun) begin(p);
    if (p->halted && left == 0) return;
    if (p->halted) left--;
    p->halted = 0;
    while (!p->ended) {
        int status;
        ptrace(PTRACE_SYSCALL, p->pid, 0, passed_on);
        waitpid(p->pid, &status, 0);
        passed_on = 0;
        if (WIFEXITED(status)) { end(p, WEXITSTATUS(status)); break; }
        if (WIFSIGNALED(status)) { end(p, 128 + WTERMSIG(status)); break; }
        if (WSTOPSIG(status) != (SIGTRAP | 0x80)) {
            if (WSTOPSIG(status) != SIGTRAP) passed_on = WSTOPSIG(status);
            continue;
        }
        struct __ptrace_syscall_info info;
        ptrace(PTRACE_GET_SYSCALL_INFO, p->pid, sizeof info, &info);
        if (info.op != PTRACE_SYSCALL_INFO_ENTRY || !counts(p->pid, &info, line, sizeof line)) continue;
        fprintf(p->log, "%s\n", line);
        if (left == 0) { p->halted = 1; return; }
        left--;
    }
}

// Where the words after a separator begin; the separator becomes the end of those before it.
static char **after(char **words, const char *separator) {
    while (*words && strcmp(*words, separator)) words++;
    if (!*words) { fprintf(stderr, "usage: weave SCHEDULE PREFIX -- A WORD.. --- B WORD..\n"); exit(2); }
    *words = NULL;
    return words + 1;
}

int main(int count, char **words) {
    if (count < 4) after(words + count, "--");
    char *schedule = words[1];
    prefix = words[2];
    struct program programs[2] = {{.name = 'A'}, {.name = 'B'}};
    programs[0].words = after(words + 3, "--");
    programs[1].words = after(programs[0].words, "---");
    for (struct program *p = programs; p < programs + 2; p++) {
        char path[4096];
        snprintf(path, sizeof path, "%s.%c.calls", prefix, p->name);
        p->log = fopen(path, "we");
    }
    for (char *part = strtok(schedule, ","); part; part = strtok(NULL, ",")) {
        struct program *p = programs + (part[0] == 'B');
        if (!p->ended) go_on(p, part[1] == '*' ? -1 : atoi(part + 1));
    }
    char path[4096];
    snprintf(path, sizeof path, "%s.ends", prefix);
    FILE *ends = fopen(path, "w");
    for (struct program *p = programs; p < programs + 2; p++) {
        if (p->begun && !p->ended) go_on(p, -1);
        if (p->begun) fprintf(ends, "%c %d\n", p->name, p->status);
        fclose(p->log);
    }
    fclose(ends);
    return 0;
}
