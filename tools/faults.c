/* Loaded before a program (LD_PRELOAD), this fails its calls, one in each run.
   FAULTS=alloc,open,read,write or some of these: at each call of these kinds the program goes on in a process of its own, in which
   that call fails and no other. After its end the program itself goes on from the call as if nothing had been. So its standard
   output and its standard error are files that can be read and written, which hold at the end what is printed without a fault.
   WANTED=file: what is printed without a fault.
   TOLD_TO=file: of each failed call a line of its kind, its number, the status (minus a signal), the bytes printed, whether they are those
   wanted, whether they begin them, the bytes on standard error, the path of the file of the call, and what was printed, at most 120 bytes.
   SHORT_WRITES=n: each write takes at most n bytes. */
#define _GNU_SOURCE
#include <dlfcn.h>
#include <errno.h>
#include <fcntl.h>
#include <stdarg.h>
#include <stdio.h>
#include <stdlib.h>
#include <string.h>
#include <sys/syscall.h>
#include <sys/wait.h>
#include <unistd.h>

enum { ALLOC, OPEN, READ, WRITE, KINDS };
enum { LONGEST = 1 << 22, FILES = 16, SECONDS = 60 };
static const char *const names[KINDS] = { "alloc", "open", "read", "write" };
static int has_faults[KINDS];
static long seen[KINDS];
static long most_written; /* 0: all */
static int told = -1;     /* where runs are told; -1: no call fails */
static char wanted[LONGEST], printed[LONGEST];
static long length; /* of what is wanted */

/* Tells what a run printed up to its end, and that it ended so. */
static void tell_run(int kind, int ended, const char *path)
{
    char line[5000];
    int status = WIFEXITED(ended) ? WEXITSTATUS(ended) : -WTERMSIG(ended);
    long size = lseek(1, 0, SEEK_END), errors = lseek(2, 0, SEEK_END);
    ssize_t got = pread(1, printed, sizeof printed, 0);
    int begins = size <= length && got == size && !memcmp(printed, wanted, size);
    int at = snprintf(line, sizeof line, "%s\t%ld\t%d\t%ld\t%d\t%d\t%ld\t%s\t", names[kind], seen[kind], status, size, begins && size == length, begins, errors, path);
    for (long i = 0; i < got && i < 120; i++)
        line[at++] = printed[i] == '\n' ? '|' : printed[i] == '\t' ? ' ' : printed[i];
    line[at++] = '\n';
    if (syscall(SYS_write, told, line, at) != at) _exit(99);
}

/* Returns true in a process of its own, in which no other call fails, and then false. */
static int fails(int kind, const char *path)
{
    if (told < 0 || !has_faults[kind]) return 0;
    seen[kind]++;
    off_t places[FILES];
    for (int file = 0; file < FILES; file++) places[file] = lseek(file, 0, SEEK_CUR);
    pid_t run = fork();
    if (!run) {
        told = -1;
        alarm(SECONDS);
        return 1;
    }
    int ended;
    if (run < 0 || waitpid(run, &ended, 0) != run) _exit(99);
    tell_run(kind, ended, path);
    /* (places in files are shared with the run) */
    for (int file = 0; file < FILES; file++)
        if (places[file] >= 0) lseek(file, places[file], SEEK_SET);
    if (ftruncate(1, places[1]) || ftruncate(2, places[2])) _exit(99);
    return 0;
}

#define REAL(name) static __typeof__(name) *real; if (!real) real = (__typeof__(name) *)dlsym(RTLD_NEXT, #name)

void *malloc(size_t size) { REAL(malloc); return fails(ALLOC, "") ? NULL : real(size); }
void *realloc(void *old, size_t size) { REAL(realloc); return fails(ALLOC, "") ? NULL : real(old, size); }

int open(const char *path, int flags, ...)
{
    REAL(open);
    va_list rest;
    va_start(rest, flags);
    int mode = va_arg(rest, int);
    va_end(rest);
    if (fails(OPEN, path)) { errno = EIO; return -1; }
    return real(path, flags, mode);
}

ssize_t read(int file, void *into, size_t size)
{
    REAL(read);
    char link[64], path[4096];
    snprintf(link, sizeof link, "/proc/self/fd/%d", file);
    ssize_t got = readlink(link, path, sizeof path - 1);
    path[got > 0 ? got : 0] = 0;
    if (fails(READ, path)) { errno = EIO; return -1; }
    return real(file, into, size);
}

static ssize_t write_some(ssize_t (*real)(int, const void *, size_t), int file, const void *from, size_t size)
{
    if (fails(WRITE, "")) { errno = EIO; return -1; }
    return real(file, from, most_written && size > (size_t)most_written ? (size_t)most_written : size);
}

ssize_t write(int file, const void *from, size_t size) { REAL(write); return write_some(real, file, from, size); }
ssize_t __write(int file, const void *from, size_t size) { REAL(write); return write_some(real, file, from, size); }

__attribute__((constructor)) static void begin(void)
{
    const char *kinds = getenv("FAULTS"), *most = getenv("SHORT_WRITES");
    most_written = most ? atol(most) : 0;
    if (!kinds) return;
    for (int kind = 0; kind < KINDS; kind++) has_faults[kind] = strstr(kinds, names[kind]) != NULL;
    FILE *wants = fopen(getenv("WANTED"), "r");
    int file = open(getenv("TOLD_TO"), O_WRONLY | O_CREAT | O_TRUNC | O_APPEND, 0600);
    if (!wants || file < 0) _exit(99);
    length = fread(wanted, 1, sizeof wanted, wants);
    fclose(wants);
    told = file;
}
